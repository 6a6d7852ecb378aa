# shellcheck shell=bash
# For the scripts that time one crate: build_pace FOLDER CRATE BELOW builds bench/FOLDER/pace.txt as a program over
# CRATE and what that stands on, proved (`rt run`), in the scratch folder $work. BELOW are the crates that the program
# names. The libraries that earlier checks built are copied along.
build_pace() {
    : "${top:?the repository}" "${work:?a scratch folder}"
    mkdir -p "$work/crates/pace/src"
    for name in $(python3 "$top/bench/stands_on.py" --names "$2"); do
        mkdir -p "$work/crates/$name/out"
        for part in src specs proofs out/rlib; do
            if [ -d "$top/crates/$name/$part" ]; then
                cp -r "$top/crates/$name/$part" "$work/crates/$name/$part"
            fi
        done
    done
    cp "$top/bench/$1/pace.txt" "$work/crates/pace/src/main.rt"
    { python3 "$top/bench/stands_on.py" "$2"; echo "pace: $3"; } > "$work/crates.txt"
    git -C "$work" init -q
    (cd "$work/crates/pace" && rt run > "$work/first.log" 2>&1) || { tail -60 "$work/first.log"; exit 1; }
}

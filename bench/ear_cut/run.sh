#!/bin/sh
# Times `cut` on convex, comb-shaped and winding polygons of 10, 100 and 1,000 corners, in microseconds a polygon.
#
#   bench/ear_cut/run.sh [BASELINE..]
#
# Copies the crates into a scratch folder, adds the program of pace.txt, builds it proved (`rt run`), and runs it five
# times by turns with each BASELINE, a program that prints lines of the same form. Prints the least of each.
set -e
top=$(cd "$(dirname "$0")/../.." && pwd)
work=$(mktemp -d)
trap 'rm -rf "$work"' EXIT
mkdir -p "$work/crates/pace/src" "$work/crates/pace/proofs/polygon"
for name in $(python3 "$top/bench/stands_on.py" --names ear_cut); do
    cp -r "$top/crates/$name" "$work/crates/$name"
    rm -rf "$work/crates/$name/out"
done
cp "$top/bench/ear_cut/pace.txt" "$work/crates/pace/src/main.rt"
cp "$top/bench/ear_cut/pace_invariants.txt" "$work/crates/pace/proofs/polygon/Invariants.antt"
cp "$top/bench/ear_cut/pace_answers.txt" "$work/crates/pace/proofs/polygon/Answers.antt"
{ python3 "$top/bench/stands_on.py" ear_cut; echo 'pace: ear_cut bim_model'; } > "$work/crates.txt"
git -C "$work" init -q
(cd "$work/crates/pace" && rt run > "$work/first.log" 2>&1) || { tail -20 "$work/first.log"; exit 1; }
python3 "$top/bench/ear_cut/by_turns.py" "$work/crates/pace/out/pace" "$@"

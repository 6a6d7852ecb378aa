#!/bin/sh
# check.sh PROGRAM [COUNT]: builds the converters and tests them. PROGRAM is the server's, which has to take what they
# write; COUNT is how many broken files are tried (3000 without it). Ends with one line and a status.
set -u
if [ $# -lt 1 ] || [ ! -x "$1" ]; then
    echo "usage: check.sh PROGRAM [COUNT]: PROGRAM is the server's program (crates/bim_server/out/bim_server)" >&2
    exit 2
fi
server=$(realpath "$1")
count=${2:-3000}
cd "$(dirname "$0")" || exit 2
here=$PWD
work=$(mktemp -d)
trap 'rm -rf "$work"' EXIT
house=/usr/share/assimp/models/IFC/AC14-FZK-Haus.ifc
passed=0
failed=0

# Packages by their Debian names, where something of them is missing.
need() { # COMMAND-OR-FILE PACKAGE ..
    thing=$1
    shift
    command -v "$thing" >/dev/null 2>&1 || [ -e "$thing" ] && return
    apt-get -o DPkg::Lock::Timeout=300 install -y -qq "$@" >"$work/apt.log" 2>&1 ||
        { apt-get update -qq && apt-get -o DPkg::Lock::Timeout=300 install -y -qq "$@"; } >>"$work/apt.log" 2>&1 ||
        { echo "check.sh: can't install $*: $(tail -1 "$work/apt.log")" >&2; exit 2; }
}

# One step: its name, and the command. A step that fails shows its last lines.
step() {
    name=$1
    shift
    if "$@" >"$work/step.log" 2>&1; then
        passed=$((passed + 1))
        echo "passed $name"
    else
        failed=$((failed + 1))
        echo "FAILED $name"
        tail -25 "$work/step.log" | sed 's/^/    /'
    fi
}

# A script that prints a line `NAME: N passed, M failed`, whose numbers are added.
counted() {
    name=$1
    shift
    "$@" >"$work/step.log" 2>&1
    status=$?
    line=$(grep -E ': [0-9]+ passed, [0-9]+ failed' "$work/step.log" | tail -1)
    if [ -z "$line" ]; then
        failed=$((failed + 1))
        echo "FAILED $name: status $status"
        tail -25 "$work/step.log" | sed 's/^/    /'
        return
    fi
    grep FAILED "$work/step.log"
    echo "$line"
    more=$(echo "$line" | sed -E 's/.*: ([0-9]+) passed.*/\1/')
    less=$(echo "$line" | sed -E 's/.*passed, ([0-9]+) failed.*/\1/')
    passed=$((passed + more))
    failed=$((failed + less))
    [ "$less" -gt 0 ] || [ "$status" -eq 0 ] || failed=$((failed + 1))
}

need cargo cargo rustc
need rustfmt rustfmt
cargo clippy --version >/dev/null 2>&1 || need cargo-clippy rust-clippy
need python3 python3
need flake8 flake8
need mypy mypy
need g++ g++
need /usr/include/assimp/scene.h libassimp-dev
need "$house" assimp-testmodels

PYTHONPATH=$here/check
PYTHONDONTWRITEBYTECODE=1
export PYTHONPATH PYTHONDONTWRITEBYTECODE
step "build" cargo build --release --offline
step "rustfmt" cargo fmt --check
step "clippy" cargo clippy --release --offline --all-targets -- -D warnings
step "unit tests and 20,000 pairs of solids" timeout 600 cargo test --release --offline
step "flake8" flake8 --max-line-length 120 --extend-ignore E203 check
step "mypy" mypy --strict --no-error-summary --cache-dir "$work/mypy" check
converter=$here/target/release/ifc2grid
counted "cases" python3 check/run_cases.py "$converter" "$work/cases"
counted "house" python3 check/house.py "$converter" "$house" "$work/house"
counted "trades" python3 check/trades.py "$converter" "$work/trades"
counted "words" python3 check/words.py "$converter" "$house" "$work/words"
counted "broken files" python3 check/broken.py "$converter" "$work/cases" "$count" 1
counted "hostile" python3 check/hostile.py "$converter" "$work/hostile"
counted "served" python3 check/served.py "$server" "$work"
counted "as it is" python3 check/as_it_is.py "$converter" "$server" "$work"
counted "trip" python3 check/trip.py "$converter" "$server" "$house" "$work/trip"
step "build mesh2grid" make -C mesh -s
counted "meshes" python3 check/meshes.py "$here/mesh/mesh2grid" "$server" "$work/meshes"
echo "convert: $passed passed, $failed failed"
[ "$failed" -eq 0 ]

#!/bin/sh
# Times `near` and `lists_near` on generated pairs, in nanoseconds a pair.
#
#   bench/clearance/run.sh [BASELINE..]
#
# Copies the crates into a scratch folder, adds the program of pace.txt, builds it proved (`rt run`), and runs it
# four times by turns with each BASELINE, a program that prints lines of the same form. Prints the least of each.
set -e
top=$(cd "$(dirname "$0")/../.." && pwd)
work=$(mktemp -d)
trap 'rm -rf "$work"' EXIT
mkdir -p "$work/crates/pace/src" "$work/crates/pace/proofs/parallelepiped"
for name in $(python3 "$top/bench/stands_on.py" --names clearance); do
    cp -r "$top/crates/$name" "$work/crates/$name"
    rm -rf "$work/crates/$name/out"
done
cp "$top/bench/clearance/pace.txt" "$work/crates/pace/src/main.rt"
cp "$top/bench/clearance/pace_invariants.txt" "$work/crates/pace/proofs/parallelepiped/Invariants.antt"
{ python3 "$top/bench/stands_on.py" clearance; echo 'pace: clearance bim_model'; } > "$work/crates.txt"
git -C "$work" init -q
(cd "$work/crates/pace" && rt run > "$work/first.log" 2>&1) || { tail -20 "$work/first.log"; exit 1; }
python3 "$top/bench/clearance/by_turns.py" "$work/crates/pace/out/pace" "$@"

#!/bin/sh
# Times `BoxTable::within` beside `places_within` on the same generated boxes, in nanoseconds a call.
#
#   bench/box_lanes/run.sh
#
# Copies the crates into a scratch folder, adds the program of pace.txt, builds it proved (`rt run`) and prints the
# least of nine rounds by turns for each number of boxes and each cube that they lie in. The probes are boxes of the list.
set -e
top=$(cd "$(dirname "$0")/../.." && pwd)
work=$(mktemp -d)
trap 'rm -rf "$work"' EXIT
mkdir -p "$work/crates/pace/src"
for name in $(python3 "$top/bench/stands_on.py" --names box_lanes); do
    cp -r "$top/crates/$name" "$work/crates/$name"
    rm -rf "$work/crates/$name/out"
done
cp "$top/bench/box_lanes/pace.txt" "$work/crates/pace/src/main.rt"
{ python3 "$top/bench/stands_on.py" box_lanes; echo 'pace: box_lanes bim_model'; } > "$work/crates.txt"
git -C "$work" init -q
(cd "$work/crates/pace" && rt run > "$work/first.log" 2>&1) || { tail -60 "$work/first.log"; exit 1; }
"$work/crates/pace/out/pace"

#!/bin/sh
# Megabytes per second of cutting and of reading files of the clear text encoding, and bytes of memory per byte of a file.
#   bench/p21/run.sh OUT [FILE..]   from the top of the repository; OUT is a folder for the program and the inputs that it makes
# Builds a program over copies of the crates, and runs it over each FILE and over four inputs of 8 MiB that would show a scan that
# falls back too often: an unclosed comment, slashes, an unclosed text of doubled apostrophes, and a number sign with digits
# without end. Prints a line for each: its bytes, tokens, and instances (or the place where reading stopped), and then, each the
# best of five runs, the speed of cutting and of reading in millions of bytes per second with the milliseconds of each, and the
# peak memory of the process less the file's bytes, divided by the file's bytes (a peak that the measuring script itself reaches,
# some 10 MB, can't be told apart). Cutting and reading stop at a fault, and the speed is over the whole input all the same: there
# the milliseconds count.
set -e
here=$(dirname "$(realpath "$0")")
out=$1
shift
mkdir -p "$out/repository/crates"
for crate in $(python3 bench/stands_on.py --names p21_reader); do
    rm -rf "$out/repository/crates/$crate"
    cp -r "crates/$crate" "$out/repository/crates/$crate"
done
speed="$out/repository/crates/p21_speed"
mkdir -p "$speed/src" "$speed/specs" "$speed/proofs"
: > "$speed/specs/Lib.antt"
: > "$speed/proofs/Lib.antt"
{ python3 bench/stands_on.py p21_reader; echo 'p21_speed: p21_reader p21_lexer bim_model'; } > "$out/repository/crates.txt"
cp "$here/speed.txt" "$speed/src/main.rt"
(cd "$speed" && rt run -- /dev/null > "$out/build.log" 2>&1) || { tail -20 "$out/build.log"; exit 1; }
python3 "$here/measure.py" "$out" "$speed/out/p21_speed" "$@"

#!/bin/sh
# Times the calls of a board of 1,000 to 100,000 comments on 100 to 10,000 topics, in nanoseconds a call.
#
#   bench/board/run.sh
#
# Copies the crates, with the libraries that earlier checks built of them, into a scratch folder, adds the program of
# pace.txt, builds it proved (`rt run`), and runs it three times. Prints a line for each kind of call on each board: how
# many topics and comments there are, the least nanoseconds of a call, and how many objects a call gives or changes.
set -e
top=$(cd "$(dirname "$0")/../.." && pwd)
work=$(mktemp -d)
trap 'rm -rf "$work"' EXIT
. "$top/bench/pace.sh"
build_pace board book_topics "book_topics bim_model"
for _ in 1 2 3; do
    "$work/crates/pace/out/pace"
done | awk '
    { place = $0; sub(/ ns .*/, "", place); split(substr($0, length(place) + 1), rest, " ") }
    !(place in least) { order[++count] = place; least[place] = rest[2] }
    rest[2] + 0 < least[place] + 0 { least[place] = rest[2] }
    { objects[place] = rest[4] }
    END { for (i = 1; i <= count; i++) print order[i], "ns", least[order[i]], "objects", objects[order[i]] }'

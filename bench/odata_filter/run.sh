#!/bin/sh
# Times lists of 10,000 topics by filters and orders, in microseconds of the processor a list.
#
#   bench/odata_filter/run.sh
#
# Copies the crates, with the libraries that earlier checks built of them, into a scratch folder, adds the program of
# pace.txt, builds it proved (`rt run`), and runs it three times. Prints a line for each list: the least microseconds of
# one, and how many topics it has.
set -e
top=$(cd "$(dirname "$0")/../.." && pwd)
work=$(mktemp -d)
trap 'rm -rf "$work"' EXIT
. "$top/bench/pace.sh"
build_pace odata_filter odata_filter "odata_filter bcf_topics bim_model"
for _ in 1 2 3; do
    "$work/crates/pace/out/pace"
done | awk '
    { place = $0; sub(/ us .*/, "", place); split(substr($0, length(place) + 1), rest, " ") }
    !(place in least) { order[++count] = place; least[place] = rest[2] }
    rest[2] + 0 < least[place] + 0 { least[place] = rest[2] }
    { topics[place] = rest[4] }
    END { for (i = 1; i <= count; i++) print order[i], "us", least[order[i]], "topics", topics[order[i]] }'

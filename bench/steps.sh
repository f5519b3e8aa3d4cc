#!/usr/bin/env bash
# bench/steps.sh ROWS: steps ROWS made rows with rising ids into the plain gazetteer and into a map from ids to lines. The same program makes and
# checks the rows for both. Time and peak memory, the best of three runs.
set -eu
. "$(dirname "$0")/lib.sh"
number ROWS "${1-}"
use_program gaz_steps plain 1
for _ in 1 2 3; do
    measure plain /dev/null "$program" plain "$1"
    measure map /dev/null "$program" map "$1"
done
echo "$1" > wanted.out
same plain plain.out wanted.out
same map map.out wanted.out
tell "steps: $(commas "$1") rows" PlainGaz plain "$1" rows
tell '' 'BTreeMap<u32, Vec<u8>>' map "$1" rows
show

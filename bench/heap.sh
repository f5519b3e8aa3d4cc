#!/usr/bin/env bash
# bench/heap.sh RECORDS: puts, gets and drops so many records of 60 to 179 bytes, the lengths of most rows, over pages in memory, and prints how many
# bytes of pages there are for each byte of a record. Beside the puts mawk appends the same bytes as text. The best of three runs.
set -eu
. "$(dirname "$0")/lib.sh"
number RECORDS "${1-}"
many=$1
use_program gaz_paging trial
for _ in 1 2 3; do
    for phase in 1 2 3; do measure "records_$phase" /dev/null "$program" records "$many" "$phase"; done
    measure mawk /dev/null mawk -v n="$many" 'BEGIN { x = 1; line = sprintf("%179s", ""); for (i = 0; i < n; i++) { x = (x * 16807) % 2147483647; printf "%s", substr(line, 1, 60 + x % 120) > "/dev/null" } }'
done
tell "puts: $(commas "$many") records" gaz_heap records_1 "$many" records
tell '' 'mawk, the same bytes as text' mawk "$many" records
tell gets gaz_heap records_2 "$many" records records_1
tell drops gaz_heap records_3 "$many" records records_2
show
mawk '{ printf "%s pages, %.3f bytes of pages for each byte of a record\n", $1, $1 * 4096 / $3 }' records_1.out

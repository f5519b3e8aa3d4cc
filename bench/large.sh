#!/usr/bin/env bash
# bench/large.sh MILLIONS: a load of so many million made rows, a day of 2,100 lines over it, an opening with one get, and 10,000 gets, each once, in runs of
# `serve`: seconds by the clock and of the processor, peak memory, and the bytes of the mirror. The made table has at most a million rows, so each
# further million is another table with its ids raised; there are no lines of the other tables. For docs/RUNNING.md.
set -eu
. "$(dirname "$0")/lib.sh"
number MILLIONS "${1-}"
use_gaz
for ((million = 0; million < $1; million++)); do
    "$program" make "$((7 + million))" 1000000 < /dev/null |
        mawk -v "more=$((million * 1000000))" 'BEGIN { FS = OFS = "\t" } { $1 += more; $2 = $3 = "Place " $1; print }'
done > allCountries.txt
for file in alternateNamesV2 hierarchy countryInfo admin1CodesASCII admin2Codes; do : > "$file.txt"; done
rows=$(($1 * 1000000))
mawk -v "rows=$rows" -v lines=2000 -v gone=100 -v names=0 -v names_gone=0 -f "$bench/made/day.awk" allCountries.txt
for file in modifications deletes alternateNamesModifications alternateNamesDeletes; do : >> "$file-2024-03-02.txt"; done
echo 'load 2024-03-01' > load.requests
echo 'day 2024-03-02' > day.requests
echo 'get 7' > open.requests
mawk -v "rows=$rows" 'BEGIN { for (q = 1; q <= 10000; q++) print "get " q * 7919 % rows + 1 }' > gets.requests

# told NAME: a row of the table.
told() { mawk -v name="$1" '{ printf "| %s | %s | %s | %.1f |\n", name, $1, $2, $3 / 1024 }' "$1.runs"; }

echo "$rows rows, $(stat -c %s allCountries.txt) bytes"
echo '| what | seconds | processor s | peak MB |'
echo '|---|---|---|---|'
for what in load open gets day; do
    settle
    measure "$what" "$what.requests" "$program" serve
    told "$what"
done
[ "$(cat load.out day.out)" = $'ok load 2024-03-01\nok day 2024-03-02' ] || fail "load and day: $(cat load.out day.out)"
[ "$(grep -c '^ok 1$' gets.out)" = 10000 ] || fail "gets: $(tail -n 1 gets.out)"
stat -c '%n: %s bytes' mirror.*

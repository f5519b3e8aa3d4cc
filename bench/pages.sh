#!/usr/bin/env bash
# bench/pages.sh ROWS: a load of ROWS made rows with lines of all other tables, and a day of 2,100 lines, of a mirror in pages, each in a run that
# opens the mirror first; beside it the same lines in sqlite3 with the same tables and an index for each kind of question, the day in one
# transaction. Time, peak memory and what is written, the best of three runs. All rows after the day are got from both in the end, and are equal.
set -eu
. "$(dirname "$0")/lib.sh"
. "$bench/jobs.sh"
number ROWS "${1-}"
use_gaz
made_rows "$1"
made_dump all
made_day 1200 40 800 60
cat "$bench/peers/tables.sql" "$bench/peers/indexes.sql" > load.sql

one_load_of_pages() { # WAY: each from nothing
    rm -f mirror.* places.db
    settle
    "$1" load load.requests "$program" serve
    "$1" sqlite3_load load.sql "${sqlite[@]}" places.db
}

one_day_of_pages() { # WAY: over what the load left
    cp kept/* .
    settle
    "$1" day day.requests "$program" serve
    "$1" sqlite3_day "$bench/peers/day.sql" "${sqlite[@]}" places.db
}

for _ in 1 2 3; do one_load_of_pages measure; done
one_load_of_pages measure_writes
mkdir kept
cp mirror.* places.db kept
for _ in 1 2 3; do one_day_of_pages measure; done
one_day_of_pages measure_writes
[ "$(cat load.out day.out)" = $'ok load 2024-03-01\nok day 2024-03-02' ] || fail "load and day: $(cat load.out day.out)"

last=$(sort -n -k 1,1 -t $'\t' allCountries.txt modifications-2024-03-02.txt | tail -n 1 | cut -f 1)
seq "$last" | sed 's/^/get /' | "$program" serve | sed '/^ok/d' > here.out
"${sqlite[@]}" places.db 'SELECT * FROM places ORDER BY id' > there.out
same 'all rows after the day' here.out there.out

others=$(cat alternateNamesV2.txt hierarchy.txt countryInfo.txt admin?Codes*.txt | wc -l)
tell "load into pages: $(commas "$rows") rows, $(commas "$others") lines of other tables" gaz_main load "$rows" rows
tell '' 'sqlite3, tables and indexes' sqlite3_load "$rows" rows
lines=$(cat ./*-2024-03-02.txt | wc -l)
tell "day over pages: $(commas "$lines") lines, opening included" gaz_main day "$lines" lines
tell '' 'sqlite3, one transaction' sqlite3_day "$lines" lines
show
stat -c '%n: %s bytes' mirror.* places.db

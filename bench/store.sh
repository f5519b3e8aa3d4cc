#!/usr/bin/env bash
# bench/store.sh ROWS: steps ROWS made rows with rising ids into the five tables over pages in memory, and gets each. Once all else in the rows is the
# same, and once names have the id in them and coordinates are scattered. Beside it sqlite3 in memory takes the same rows from a file, once into tables
# with all indexes of bench/peers/indexes.sql, as the store does, and once into tables of which the indexes are made afterwards. The best of three runs.
set -eu
BENCH_FOLDER=${BENCH_FOLDER:-/dev/shm}
. "$(dirname "$0")/lib.sh"
need sqlite3
number ROWS "${1-}"
many=$1
use_program gaz_storing trial
sqlite=(sqlite3 -bail -batch -cmd 'PRAGMA cache_size = -65536' -ascii -separator $'\t' -newline $'\n' :memory:)
for file in alternateNamesV2 hierarchy countryInfo admin1CodesASCII admin2Codes; do : > "$file.txt"; done
size='SELECT page_count * page_size FROM pragma_page_count, pragma_page_size;'
{ grep -v '^\.import' "$bench/peers/tables.sql"; cat "$bench/peers/indexes.sql"; grep '^\.import' "$bench/peers/tables.sql"; echo "$size"; } > kept.sql
{ cat "$bench/peers/tables.sql" "$bench/peers/indexes.sql"; echo "$size"; } > made.sql
for order in rising scattered; do
    "$program" "$order" "$many" 0 > allCountries.txt
    for _ in 1 2 3; do
        for phase in 1 2 3; do measure "store_$phase" /dev/null "$program" "$order" "$many" "$phase"; done
        measure kept kept.sql "${sqlite[@]}"
        measure made made.sql "${sqlite[@]}"
    done
    tell "$order: $(commas "$many") rows, without the making of these" gaz_rows store_2 "$many" rows store_1
    tell '' 'sqlite3, indexes kept' kept "$many" rows
    tell '' 'sqlite3, indexes made afterwards' made "$many" rows
    tell "$order: gets" gaz_rows store_3 "$many" rows store_2
    mawk -v order="$order" -v sqlite="$(tail -n 1 kept.out)" '{
        printf "%s: %s bytes of pages a row, of which the row has %.1f; %.2f changed pages a step; height %s; sqlite3 %.1f bytes a row\n",
            order, sprintf("%.1f", $6 * 4096 / $1), $4 / $1, $8 / $1, $11, sqlite / $1 }' store_2.out >> pages.out
    rm ./*.runs
done
show
cat pages.out

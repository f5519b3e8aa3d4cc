# The jobs of the product, each beside its peer over the same files: what all.sh and the scripts of a single job call. Sourced behind lib.sh.
# shellcheck shell=bash
# shellcheck disable=SC2154 # bench and program are lib.sh's
need sqlite3 strace
# With its 2 MB of cache it would write the same pages many times over.
sqlite=(sqlite3 -bail -batch -cmd 'PRAGMA cache_size = -65536' -ascii -separator $'\t' -newline $'\n')

# The files that each job has its work from:

# made_rows ROWS: rows.txt, the made table of the product.
made_rows() {
    rows=$1
    "$program" make 7 "$rows" > rows.txt < /dev/null || fail "gaz_main makes no table of $rows rows"
    bytes=$(stat -c %s rows.txt)
}

# made_dump all|rows: the files of a load, of these rows with all other tables, or of the rows as they are and nothing else.
made_dump() {
    local file
    if [ "$1" = all ]; then mawk -f "$bench/made/dump.awk" rows.txt; else cp rows.txt allCountries.txt; fi
    for file in alternateNamesV2 hierarchy countryInfo admin1CodesASCII admin2Codes; do : >> "$file.txt"; done
    echo 'load 2024-03-01' > load.requests
    echo 'get 1' > open.requests
    echo 'SELECT * FROM places WHERE id = 1;' > open.sql
}

# made_day MODIFICATIONS DELETES NAMES DELETES_OF_NAMES: the files of the day after.
made_day() {
    local file
    mawk -v "rows=$rows" -v "lines=$1" -v "gone=$2" -v "names=$3" -v "names_gone=$4" -f "$bench/made/day.awk" allCountries.txt
    for file in modifications deletes alternateNamesModifications alternateNamesDeletes; do : >> "$file-2024-03-02.txt"; done
    echo 'day 2024-03-02' > day.requests
}

# made_questions KIND=HERE,THERE..: so many of each kind for serve and for sqlite3.
made_questions() { mawk -v "rows=$rows" -v "numbers=$*" -f "$bench/made/questions.awk"; }

# Each job measures three runs of each side in turn, and tells them.

job_make() {
    for _ in 1 2 3; do
        measure make /dev/null "$program" make 7 "$rows"
        measure wc rows.txt wc -l
    done
    same make make.out rows.txt
    [ "$(cat wc.out)" = "$rows" ] || fail "make: $(cat wc.out) lines"
    tell "make: $(commas "$rows") rows, $(commas "$bytes") bytes" gaz_main make "$(megabytes)" MB
    tell '' 'wc -l over these' wc "$(megabytes)" MB
}

job_scan() {
    local id=$((rows / 2 + 1))
    for _ in 1 2 3; do
        measure scan rows.txt "$program" scan "$id"
        measure mawk rows.txt mawk -F '\t' -v "id=$id" -f "$bench/peers/scan.awk"
    done
    same scan scan.out mawk.out
    tell "scan: $(commas "$rows") rows" gaz_main scan "$(megabytes)" MB
    tell '' 'mawk, the same checks but UTF-8' mawk "$(megabytes)" MB
}
megabytes() { mawk -v b="$bytes" 'BEGIN { printf "%.6f", b / 1000000 }'; }

# job_load tables|indexes: leaves the mirror and the database.
job_load() {
    local with=$1
    for _ in 1 2 3; do one_load measure; done
    one_load measure_writes
    [ "$(cat load.out)" = 'ok load 2024-03-01' ] || fail "load: $(cat load.out)"
    tell "load: $(commas "$rows") rows, $(commas "$(cat alternateNamesV2.txt hierarchy.txt countryInfo.txt admin?Codes*.txt | wc -l)") lines of other tables" gaz_main load "$rows" rows
    tell '' 'sqlite3, the tables' sqlite3_load "$rows" rows
    [ "$with" = tables ] || tell '' 'sqlite3, indexes besides' sqlite3_indexes "$rows" rows
}
one_load() { # WAY: each from nothing
    rm -f mirror.* places.db
    settle
    "$1" load load.requests "$program" serve
    "$1" sqlite3_load "$bench/peers/tables.sql" "${sqlite[@]}" places.db
    [ "$with" = tables ] || "$1" sqlite3_indexes "$bench/peers/indexes.sql" "${sqlite[@]}" places.db
}

# The mirror and the database are opened, each for one get.
job_open() {
    for _ in 1 2 3; do
        measure open open.requests "$program" serve
        measure open_framed open.requests "$program" serve --frames 65536
        measure sqlite3_open open.sql "${sqlite[@]}" places.db
    done
    tell 'open: and one get' gaz_main open 1 each
    tell '' 'gaz_main, 65,536 frames' open_framed 1 each
    tell '' sqlite3 sqlite3_open 1 each
}

# A day over what the load left, opening included; leaves the mirror and the database of that day.
job_day() {
    mkdir kept
    cp mirror.* places.db kept
    for _ in 1 2 3; do one_day measure; done
    one_day measure_writes
    rm -r kept
    [ "$(cat day.out)" = 'ok day 2024-03-02' ] || fail "day: $(cat day.out)"
    local lines
    lines=$(cat ./*-2024-03-02.txt | wc -l)
    tell "day: $(commas "$lines") lines, opening included" gaz_main day "$lines" lines
    tell '' 'sqlite3, one transaction' sqlite3_day "$lines" lines
}
one_day() { # WAY
    cp kept/* .
    settle
    "$1" day day.requests "$program" serve
    "$1" sqlite3_day "$bench/peers/day.sql" "${sqlite[@]}" places.db
}

# job_ask KIND WHAT: the questions of this kind, with 64 frames and with 65,536, without the opening, which job_open has measured before. sqlite3 is asked at least those that the
# product is, so that a time of its own can be told; the answers to those are compared, each row whole.
job_ask() {
    local kind=$1 what=$2 here there sql=$1.sql how
    here=$(wc -l < "$kind.requests")
    if [ -e "$bench/peers/$sql" ]; then
        sql=$bench/peers/$sql
        there=$here
        how='one statement'
    else
        there=$(wc -l < "$sql")
        how="$(commas "$there") statements"
    fi
    for _ in 1 2 3; do
        measure "$kind" "$kind.requests" "$program" serve
        measure "${kind}_framed" "$kind.requests" "$program" serve --frames 65536
        measure "sqlite3_$kind" "$sql" "${sqlite[@]}" places.db
    done
    same "$kind" "$kind.out" "${kind}_framed.out"
    sed '/^ok/d' "$kind.out" > rows_here.out
    if [ "$here" = "$there" ]; then cp "sqlite3_$kind.out" rows_there.out; else head -n "$here" "$sql" | "${sqlite[@]}" places.db > rows_there.out; fi
    same "$kind" rows_here.out rows_there.out
    tell "$kind: $(commas "$here") $what" gaz_main "$kind" "$here" each open
    tell '' 'gaz_main, 65,536 frames' "${kind}_framed" "$here" each open_framed
    tell '' "sqlite3, $how" "sqlite3_$kind" "$there" each sqlite3_open
}

# At most MOST of a kind, and so few that they go over at most ROWS rows in all, but at least 10.
asked() { # MOST ROWS
    local number=$(($2 / rows))
    ((number >= 10)) || number=10
    ((number <= $1)) || number=$1
    echo "$number"
}

# The searches that go by keys, and all.
# shellcheck disable=SC2034 # the scripts ask for so many of each
key_kinds=(equals starts alternate language box) search_kinds=("${key_kinds[@]}" code)
job_searches() {
    job_ask equals 'searches by a name'
    job_ask starts 'searches by the beginning of a name'
    job_ask alternate 'searches by an alternate name'
    job_ask language 'searches by an alternate name of a language'
    job_ask box 'searches in a box'
    job_ask code 'searches by country and code'
}

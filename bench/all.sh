#!/usr/bin/env bash
# bench/all.sh ROWS: every job of the product over ROWS made rows beside its peer, in one run: `make` beside wc -l, `scan` beside mawk, and a load,
# a day of 2,100 lines and all questions of `serve` beside sqlite3 with indexes. It writes the table of docs/PERFORMANCE.md and that of the README,
# which stand there between two comments. Where two answers differ it ends with a status that isn't 0 and writes neither.
set -eu
. "$(dirname "$0")/lib.sh"
. "$bench/jobs.sh"
number ROWS "${1-}"
load=$(cut -d ' ' -f 1-3 /proc/loadavg)
SECONDS=0
use_gaz

begin='<!-- bench/all.sh writes from here -->' end='<!-- to here -->'
for file in docs/PERFORMANCE.md README.md; do
    [ "$(grep -x -F -e "$begin" -e "$end" "$top/$file")" = "$begin"$'\n'"$end" ] || fail "$file hasn't the two comments between which the table stands"
done

job() { # the jobs say which one is under way
    echo "bench/all.sh: $* ($SECONDS s so far)" >&2
    "$@"
}
job made_rows "$1"
job made_dump all
made_day 1200 40 800 60
# A search by country and code goes over all rows, and children over those of a country.
walks=$(asked 1000 2000000)
lists=$(asked 100 20000000)
made_questions get=100000,100000 admin=100000,100000 hierarchy=50000,50000 "children=$lists,$lists" "${key_kinds[@]/%/=1000,1000}" "code=$walks,1000"
job job_make
job job_scan
job job_load indexes
job job_day
job job_open
job job_ask get gets
job job_searches
job job_ask hierarchy 'chains'
job job_ask children 'lists'
job job_ask admin 'admin codes'

# The run in a line; the table stands below it.
about() {
    local changes=
    git -C "$top" diff --quiet HEAD -- crates || changes=' with changes'
    echo "\`bench/all.sh $rows\` of commit $(git -C "$top" rev-parse --short HEAD)$changes on $(date +%F), in $((SECONDS / 60)) min $((SECONDS % 60)) s; load average at its start $load; $(nproc) cores ($(sed -n 's/^model name[[:space:]]*: //p' /proc/cpuinfo | head -n 1)), Linux $(uname -r), sqlite3 $(sqlite3 -version | cut -d ' ' -f 1) (journal mode $(sqlite3 places.db 'PRAGMA journal_mode'), synchronous $(sqlite3 places.db 'PRAGMA synchronous')), $(mawk -W version 2>&1 | sed -n 1p)."
}

# put_table FILE TEXT: the text takes the place of what stands in the file between the two comments.
put_table() {
    mawk -v begin="$begin" -v end="$end" -v text="$2" '
        $0 == end { inside = 0 }
        !inside
        $0 == begin { inside = 1; print ""; while ((getline line < text) > 0) print line; print "" }' "$1" > new.md
    cat new.md > "$1"
}

{ about; echo; show; } > all.md
{
    about
    echo
    echo '| what | this | beside it |'
    echo '|---|---|---|'
    mawk -F ' *[|] *' '
        function cell() { return ($6 ~ / (µs|ms)/ ? $6 : $4 " s") ", " $8 " MB of memory" ($9 == "" ? "" : ", " $9 " bytes written") }
        function told() { if (what ~ /^(scan|load|open|day|get|equals|hierarchy|children):/) print "| " what " | " this " | " beside " |" }
        $2 != "" { told(); what = $2; this = cell(); beside = ""; next }
        { beside = beside (beside == "" ? "" : "; ") $3 ": " cell() }
        END { told() }' <(tail -n +3 table.md)
} > short.md
put_table "$top/docs/PERFORMANCE.md" all.md
put_table "$top/README.md" short.md
cat all.md

#!/usr/bin/env bash
# bench/commit.sh TIMES PAGES: commits PAGES pages of 4,096 bytes TIMES times through the redo log over real files, and beside it writes the same
# bytes twice over with `dd conv=fsync`, once as the log and once as the pages, a process each time. The best of three runs.
set -eu
. "$(dirname "$0")/lib.sh"
number TIMES "${1-}"
number PAGES "${2-}"
need strace dd
use_program gaz_commits 1 1
pages=$(($1 * $2))
commits() { # WAY
    rm -f mirror.*
    settle
    "$1" commits /dev/null "$program" "$times" "$each"
}
times=$1 each=$2
for _ in 1 2 3; do
    commits measure
    # shellcheck disable=SC2016 # the inner shell has these words
    measure dd /dev/null bash -c 'for ((n = 0; n < $1; n++)); do for file in log pages; do dd if=/dev/zero of=$file bs=4096 count="$2" conv=fsync,notrunc status=none; done; done' - "$times" "$each"
done
commits measure_writes
echo "$pages" > wanted.out
same commits commits.out wanted.out
tell "$(commas "$times") commits of $(commas "$each") pages" gaz_commits commits "$pages" pages
tell '' 'dd conv=fsync, twice' dd "$pages" pages
show
mawk -v times="$times" '{ printf "a commit: %.1f writes, %.1f syncs, %.0f bytes\n", $2 / times, $3 / times, $1 / times }' commits.disk

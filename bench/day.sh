#!/usr/bin/env bash
# bench/day.sh ROWS LINES: a load of ROWS made rows, and a day of LINES modifications and a tenth as many deletes, each in a run of `serve`, which
# opens the mirror first; beside it the same lines in sqlite3 with a primary key, one transaction each. Time, peak memory and what is written,
# the best of three runs. The rows of the day are got from both in the end.
set -eu
. "$(dirname "$0")/lib.sh"
. "$bench/jobs.sh"
number ROWS "${1-}"
number LINES "${2-}"
use_gaz
made_rows "$1"
made_dump rows
made_day "$2" $(($2 / 10)) 0 0
job_load tables
job_day
job_open
cut -f 1 modifications-2024-03-02.txt deletes-2024-03-02.txt | sort -n > ids.txt
sed 's/^/get /' ids.txt > get.requests
sed "=" ids.txt | paste - - > get.asked
job_ask get 'gets of its rows'
show

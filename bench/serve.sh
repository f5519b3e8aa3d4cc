#!/usr/bin/env bash
# bench/serve.sh ROWS GETS: a load of ROWS made rows, and GETS gets of the mirror that it leaves, each answered before the next one is read, in
# runs of `serve`; beside it sqlite3 with a primary key, a statement for each get. Time, peak memory and what is written, the best of three runs.
set -eu
. "$(dirname "$0")/lib.sh"
. "$bench/jobs.sh"
number ROWS "${1-}"
number GETS "${2-}"
use_gaz
made_rows "$1"
made_dump rows
made_questions "get=$2,$2"
job_load tables
job_open
job_ask get gets
show

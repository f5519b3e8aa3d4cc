#!/usr/bin/env bash
# bench/search.sh ROWS [SEARCHES]: 1,000 searches of each kind, or so many, over ROWS made rows with two alternate names each, in runs of `serve`;
# beside it sqlite3 with an index for each kind. Time and peak memory, the best of three runs; that of one search without the opening.
set -eu
. "$(dirname "$0")/lib.sh"
. "$bench/jobs.sh"
searches=${2:-1000}
number ROWS "${1-}"
number SEARCHES "$searches"
use_gaz
made_rows "$1"
made_dump all
made_questions "${search_kinds[@]/%/=$searches,$searches}"
job_load indexes
job_open
job_searches
show

#!/usr/bin/env bash
# bench/kin.sh ROWS [CHAINS CHILDREN]: 1,000 chains and 100 lists of children, or so many, over ROWS made rows with countries, divisions of three
# levels and links, in runs of `serve`; beside it sqlite3 with a view of the parents, a recursive query and indexes. Time and peak memory, the best
# of three runs; that of one question without the opening.
set -eu
. "$(dirname "$0")/lib.sh"
. "$bench/jobs.sh"
chains=${2:-1000} children=${3:-100}
number ROWS "${1-}"
number CHAINS "$chains"
number CHILDREN "$children"
use_gaz
made_rows "$1"
made_dump all
made_questions "hierarchy=$chains,$chains" "children=$children,$children"
job_load indexes
job_open
job_ask hierarchy chains
job_ask children lists
show

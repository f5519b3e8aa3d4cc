#!/usr/bin/env bash
# bench/tree.sh KEYS: puts so many keys of 32 bytes, rising and at random, gets each and goes over all by a scan, over pages in memory. Beside it std's
# BTreeMap does so, and LMDB in one transaction over a file in memory, where its headers are there (Debian's liblmdb-dev). The best of three runs.
set -eu
BENCH_FOLDER=${BENCH_FOLDER:-/dev/shm}
. "$(dirname "$0")/lib.sh"
number KEYS "${1-}"
many=$1
use_program gaz_paging trial
has_lmdb=
if cc -O2 -o lmdb "$bench/peers/lmdb.c" -llmdb 2> cc.out; then has_lmdb=yes; else echo "LMDB isn't there"; fi
what=(puts gets scan) what_before=('' 1 2)
for order in rising random; do
    for _ in 1 2 3; do
        for phase in 1 2 3; do
            measure "tree_$phase" /dev/null "$program" "$order" "$many" "$phase"
            measure "map_$phase" /dev/null "$program" "map_$order" "$many" "$phase"
            [ -z "$has_lmdb" ] || measure "lmdb_$phase" /dev/null ./lmdb data "$order" "$many" "$phase"
        done
    done
    for phase in 1 2 3; do
        before=${what_before[phase - 1]}
        tell "$order ${what[phase - 1]}: $(commas "$many") keys" gaz_tree "tree_$phase" "$many" keys "${before:+tree_$before}"
        tell '' BTreeMap "map_$phase" "$many" keys "${before:+map_$before}"
        [ -z "$has_lmdb" ] || tell '' LMDB "lmdb_$phase" "$many" keys "${before:+lmdb_$before}"
    done
    echo "$order, gaz_tree: $(cat tree_1.out)" >> pages.out
    [ -z "$has_lmdb" ] || echo "$order, LMDB: $(cat lmdb_1.out)" >> pages.out
    rm ./*.runs
done
show
cat pages.out

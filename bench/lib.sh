# What the scripts of bench/ share: a folder of their own, the programs, one way of measuring, the comparing of answers, and the table.
# A script that sources this has a new folder as the current one, below BENCH_FOLDER where that is given, else below the folder where it
# was called. It ends with a status that isn't 0 where a tool is wanting, a command fails, or two answers differ.
# shellcheck shell=bash
set -eu -o pipefail
export LC_ALL=C
bench=$(cd "$(dirname "${BASH_SOURCE[0]}")" && pwd)
top=$(dirname "$bench")

fail() {
    echo "bench/${0##*/}: $*" >&2
    exit 1
}

# need TOOL..: each is on the PATH.
need() {
    local tool
    for tool; do command -v "$tool" > /dev/null || fail "there is no command $tool on the PATH"; done
}

# number NAME WORD: the word is a whole number greater than 0.
number() { [[ $2 =~ ^[1-9][0-9]{0,8}$ ]] || fail "$1 is a number from 1 to 999999999, not <$2>"; }

need mawk /usr/bin/time
folder=$(cd "$(mktemp -d -p "${BENCH_FOLDER:-.}")" && pwd)
trap 'rm -rf "$folder"' EXIT
cd "$folder"

# use_program CRATE WORDS..: `program` is that of this crate, which `rt run -- WORDS` proves and builds where it isn't there.
use_program() {
    local crate=$1
    shift
    program=$top/crates/$crate/out/$crate
    [ -x "$program" ] || (cd "$top/crates/$crate" && rt run -- "$@" < /dev/null) > build.out 2>&1 || { cat build.out >&2; fail "$crate can't be built"; }
}

# use_gaz: `program` is the product, proved and built from the sources as they are now.
use_gaz() {
    "$top/gaz" prove
    # shellcheck disable=SC2034 # the jobs run it
    program=$top/crates/gaz_main/out/gaz_main
}

# What is kept of a command that is measured has the name that it is given:
#   NAME.out    what it printed the last time
#   NAME.runs   a line for each run: seconds by the clock, processor seconds (user and system), peak resident memory in KiB
#   NAME.disk   bytes written to files, writes and syncs, of one further run that isn't timed

# measure NAME INPUT COMMAND..
measure() {
    local name=$1 input=$2 clock user system memory TIMEFORMAT='%3R %3U %3S'
    shift 2
    { time /usr/bin/time -q -f %M -o peak.txt "$@" < "$input" > "$name.out" 2> errors.txt; } 2> times.txt || { cat errors.txt >&2; fail "$name: ${1##*/} failed"; }
    [ ! -s errors.txt ] || { head errors.txt >&2; fail "$name: ${1##*/} complains"; }
    read -r clock user system < times.txt
    read -r memory < peak.txt
    mawk -v c="$clock" -v u="$user" -v s="$system" -v m="$memory" 'BEGIN { printf "%.3f %.3f %d\n", c, u + s, m }' >> "$name.runs"
}

# measure_writes NAME INPUT COMMAND..
measure_writes() {
    local name=$1 input=$2
    shift 2
    strace -f -qq -s 0 -o trace.txt -e trace=write,writev,pwrite64,pwritev,fsync,fdatasync "$@" < "$input" > "$name.out"
    mawk '/ p?write(v|64)?\(/ && !/ writev?\([12],/ { writes++; bytes += $NF } / f(data)?sync\(/ { syncs++ }
        END { printf "%.0f %d %d\n", bytes, writes, syncs }' trace.txt > "$name.disk"
}

# settle: what was written before is on the disk, so that no sync that is measured waits for it.
settle() { sync -f .; }

# same WHAT FILE FILE: the two answers are equal and say something, or nothing was measured.
same() {
    [ -s "$2" ] || fail "$1: an empty answer"
    cmp "$2" "$3" >&2 || fail "$1: the answers differ"
}

# tell WHAT BY NAME AMOUNT UNIT [BEFORE]: a row of the table, of what was measured as NAME, and was done with AMOUNT of UNIT, as 20 MB. The
# unit `each` is told as the time of one. With BEFORE, another NAME, only the processor time beyond that one's counts. A row without WHAT is
# one of a peer: it is told how many times as long it takes as the last row with one.
tell() {
    [ -e table.md ] || printf '%s\n' "${table_head[@]}" > table.md
    mawk -v what="$1" -v by="$2" -v name="$3" -v amount="$4" -v unit="$5" -v before="${6:-}" -f "$bench/row.awk" >> table.md
}

table_head=('| what | by | seconds | processor s | rate | ratio | peak MB | bytes written | writes | syncs |' '|---|---|---|---|---|---|---|---|---|---|')

# show: the table so far.
show() { cat table.md; }

# commas NUMBER: with a comma before each three digits.
commas() { sed ':again; s/\B[0-9]\{3\}\>/,&/; t again' <<< "$1"; }

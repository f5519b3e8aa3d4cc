#!/usr/bin/env bash
# tools/gaz_daily over made days: a gap, a malformed line, a kill in its middle, two copies at once; and examples/client.py over the
# first session of the README.
set -u
. "$(dirname "$0")/lib/expect.bash"
daily=$top/tools/gaz_daily
export GAZ=$program

# run WORDS..: what gaz_daily prints and says, and its status.
run() { "$daily" "$@" 2>&1; echo "status $?"; }

# day DATE ID: makes the four files of a day that adds a place.
day() {
    { row "$2" "of $1" 1; echo; } > "modifications-$1.txt"
    : > "deletes-$1.txt"
    empty_others
}

answer() { "$program" serve <<< "$1"; }

cd "$folder" || exit 1
check no_load "$(run .)" $'refused notloaded\nstatus 1'
check no_folder "$(run "$folder/none" | tail -n 1)" 'status 2'
check no_words "$(run | tail -n 1)" 'status 2'
{ row 1 one 5; echo; } > allCountries.txt
empty_others
check a_load "$(answer 'load 2024-02-27')" 'ok load 2024-02-27'
check nothing_due "$(run .)" 'status 0'

# Three days, over the end of a February with 29 days, then one that has no neighbour yet.
day 2024-02-28 2; day 2024-02-29 3; day 2024-03-01 4; day 2024-03-03 6
check three_days "$(run .)" $'ok day 2024-02-28\nok day 2024-02-29\nok day 2024-03-01\nstatus 0'
check a_gap_stays "$(run .)" 'status 0'
check the_day_before_a_gap "$(answer 'get 4')" "$(row 4 'of 2024-03-01' 1)"$'\nok 1'
check behind_the_gap "$(answer 'get 6')" 'ok 0'
day 2024-03-02 5
rm deletes-2024-03-03.txt
check three_of_four_files "$(run .)" $'ok day 2024-03-02\nstatus 0'
: > deletes-2024-03-03.txt
check the_fourth_came "$(run .)" $'ok day 2024-03-03\nstatus 0'

# A malformed line stops it, and leaves the mirror as it was; mended, it goes on.
day 2024-03-04 7; day 2024-03-05 8
echo 'x' >> modifications-2024-03-05.txt
check a_malformed_line "$(run .)" $'ok day 2024-03-04\nrefused malformed modifications-2024-03-05.txt 2 columns\nstatus 1'
check nothing_of_that_day "$(answer 'get 8')" 'ok 0'
day 2024-03-05 8
check mended "$(run "$PWD")" $'ok day 2024-03-05\nstatus 0'

# Two copies at once: the second leaves, or waits.
exec 9< .
flock -x 9
check a_second_copy "$(run .)" $'gaz_daily: another gaz_daily or a gaz_backup works in this folder\nstatus 75'
day 2024-03-06 9
run --wait . > ../waited.$$ &
waiting=$!
sleep 0.3
check it_waits "$(cat ../waited.$$)" ''
flock -u 9
wait "$waiting"
check and_goes_on "$(cat ../waited.$$)" $'ok day 2024-03-06\nstatus 0'
rm -f ../waited.$$

# Another run has the mirror.
mkfifo held && { "$program" serve < held > told & } && exec 8> held
echo 'get 1' >&8
until [ -s told ]; do sleep 0.05; done
check the_mirror_is_held "$(run . 2>&1 | tail -n 1)" 'status 3'
exec 8>&-
wait

# Killed at twenty moments while it applies ten days: a run after it applies the rest, each once.
date=2024-03-06
for n in $(seq 10 19); do date=$(date -d "$date + 1 day" +%F); day "$date" "$n"; done
: > seen
{
    for n in $(seq 1 20); do timeout -s KILL "0.0$((n % 10))$n" "$daily" . >> seen; done
} 2> /dev/null
until run . > last; [ "$(tail -n 1 last)" = 'status 0' ]; do sleep 0.05; done
cat last >> seen
check all_days "$(answer "day 2000-01-01")" "refused sequence $date"
check no_day_twice "$(grep -c '^ok day' seen)" "$(grep '^ok day' seen | sort -u | wc -l)"
check the_last_place "$(answer 'get 19')" "$(row 19 "of $date" 1)"$'\nok 1'

# The program that fails, and none.
check a_program_that_fails "$(GAZ=/bin/false run .)" $'gaz_daily: the program ended with status 1\nstatus 1'
printf 'x' > mirror.root
check without_its_root "$(run . | tail -n 1)" 'status 1'

# The client over the first session of the README.
mkdir client && cp "$top"/examples/first_day/* client
check the_client "$(cd "$top/examples" && PYTHONDONTWRITEBYTECODE=1 python3 - "$folder/client" "$program" << 'END'
import sys
from client import Ended, Gazetteer, Refused
with Gazetteer(sys.argv[1], sys.argv[2]) as gazetteer:
    try: gazetteer.get(102)
    except Refused as refused: print(refused)
    gazetteer.load("2024-03-01")
    try: gazetteer.day("2024-03-04")
    except Refused as refused: print(refused)
    gazetteer.day("2024-03-02")
    print(gazetteer.get(102)["population"], gazetteer.get(103), gazetteer.get(104)["name"])
    print([place["name"] for place in gazetteer.search(name_startsWith="neue", searchlang="de")])
    print([place["geonameid"] for place in gazetteer.hierarchy(105)], [place["name"] for place in gazetteer.children(91, most=1)])
    print(gazetteer.admin("XB.02"), gazetteer.admin("XX"))
    try: gazetteer.search(maxRows=1001)
    except Refused as refused: print(refused)
    try: gazetteer.search(name_equals="two\nlines")
    except ValueError as error: print(error)
    try: Gazetteer(sys.argv[1], sys.argv[2]).get(102)
    except Ended as ended: print("ended", ended)
    print(gazetteer.close())
END
)" "notloaded
sequence 2024-03-01
91500 None New Ford
['New Ford']
['80', '90', '91', '102', '105'] ['Évermore']
{'code': 'XB.02', 'name': 'Everland', 'ascii_name': 'Everland', 'geonameid': '91'} None
request maxRows
a request is one line
ended 3
0"

finish

#!/usr/bin/env bash
# The mirror in the current folder: what outlives a run, the lock between two runs, and files that are no mirror.
set -u
. "$(dirname "$0")/lib/expect.bash"

cd "$folder" || exit 1
mkdir first refused bad zeros
{ row 1 A 1; echo; row 2 B 2; echo; row 3 C 3; echo; } > first/allCountries.txt
{ row 2 X 9; echo; } > first/modifications-2024-03-02.txt
printf '3\tC\tgone\n' > first/deletes-2024-03-02.txt
{ row 4 D 4; echo; } > first/modifications-2024-03-03.txt
: > first/deletes-2024-03-03.txt
empty_others first

# places FOLDER: what a run finds of the four places, and the date by the refusal of a day.
places() { (cd "$1" && "$program" serve <<< $'get 1\nget 2\nget 3\nget 4\nday 2000-01-01'; echo "status $?"); }

# sums FOLDER: the checksums of the five files.
sums() { (cd "$1" && sha256sum "${mirror[@]}"); }

loaded="$(row 1 A 1)"$'\nok 1\n'"$(row 2 B 2)"$'\nok 1\n'"$(row 3 C 3)"$'\nok 1\nok 0\nrefused sequence 2024-03-01\nstatus 0'
after_a_day="$(row 1 A 1)"$'\nok 1\n'"$(row 2 X 9)"$'\nok 1\nok 0\nok 0\nrefused sequence 2024-03-02\nstatus 0'
after_two_days="$(row 1 A 1)"$'\nok 1\n'"$(row 2 X 9)"$'\nok 1\nok 0\n'"$(row 4 D 4)"$'\nok 1\nrefused sequence 2024-03-03\nstatus 0'

# Words that are no command, and a scan, make no file.
cd refused || exit 1
expect no_words 2 '' < /dev/null
expect words_behind_serve 2 '' serve now < /dev/null
expect no_id 2 '' scan x < /dev/null
expect a_word_that_is_not_utf8 8 '' serve $'\xff' < /dev/null
expect a_scan 0 $'ok 0\n' scan 1 < /dev/null
check no_file_was_made "$(ls -A)" ''

# An opening syncs each area, and so makes its file. It writes nothing.
expect no_requests 0 '' serve < /dev/null
check five_empty_files "$(stat -c '%n %s' -- *)" "$(printf '%s 0\n' "${mirror[@]}")"
expect no_requests_again 0 '' serve < /dev/null
expect nothing_was_loaded 0 $'refused notloaded\n' serve <<< 'get 1'

# Each run goes on where the last one ended.
cd ../first || exit 1
expect a_load 0 $'ok load 2024-03-01\n' serve <<< 'load 2024-03-01'
check the_load_stays "$(places .)" "$loaded"
expect a_refused_day 0 $'refused sequence 2024-03-01\n' serve <<< 'day 2024-03-03'
check it_changes_nothing "$(places .)" "$loaded"
expect the_next_day 0 $'ok day 2024-03-02\n' serve <<< 'day 2024-03-02'
check the_day_stays "$(places .)" "$after_a_day"
expect the_same_day_again 0 $'refused sequence 2024-03-02\n' serve <<< 'day 2024-03-02'
check only_the_mirror_was_made "$(made_files)" "$(printf '%s\n' "${mirror[@]}")"

# A day is stored and synced before its reply is printed: the log, the gate, the pages of both areas, the gate.
if strace -o ../trace true 2> /dev/null; then
    mkdir ../ordered && cp "${mirror[@]}" *-2024-03-03.txt ../ordered && cd ../ordered || exit 1
    strace -y -o ../trace -e trace=pwrite64,fdatasync,write "$program" serve <<< 'day 2024-03-03' > ../reply
    check the_order_of_calls "$(sed -n -E 's/^(pwrite64|fdatasync|write)\([0-9]+<[^>]*\/([^>/]*)>.*= .*/\1 \2/p' ../trace | uniq | tr '\n' ' ')" \
        "$(printf 'fdatasync mirror.%s ' mark log root left right)$(printf 'pwrite64 mirror.%s fdatasync mirror.%s ' log log mark mark)$(printf '%s mirror.%s ' pwrite64 root pwrite64 left fdatasync root fdatasync left pwrite64 mark fdatasync mark)write reply "
    check the_reply "$(cat ../reply)" 'ok day 2024-03-03'
    cd ../first || exit 1
fi

# A run that only asks, and a scan, leave the five files as they are.
before=$(sums .)
places . > /dev/null
"$program" scan 1 < allCountries.txt > /dev/null
check asking_changes_nothing "$(sums .)" "$before"

# A second run is refused while the first has the mirror, and changes nothing.
mkfifo ../in ../out
timeout 60 "$program" serve < ../in > ../out &
exec 3> ../in 4< ../out
printf 'get 3\n' >&3
read -r -t 30 -u 4 answer || answer=none
check the_first_answers "$answer" 'ok 0'
expect a_second_run 3 '' serve <<< $'get 1\nload 2024-03-01'
expect a_second_run_with_no_requests 3 '' serve < /dev/null
check it_changes_no_file "$(sums .)" "$before"
printf 'day 2024-03-03\nget 4\n' >&3
read -r -t 30 -u 4 answer || answer=none
check the_first_goes_on "$answer" 'ok day 2024-03-03'
exec 3>&-
check to_its_end "$(cat <&4)" "$(row 4 D 4)"$'\nok 1'
exec 4<&-
wait
check the_next_run_is_free "$(places .)" "$after_two_days"

# The files are the mirror, wherever they lie.
mkdir ../moved && cp "${mirror[@]}" ../moved
check a_copy_of_the_files "$(places ../moved)" "$after_two_days"

# A load that was stored stands, though its reply couldn't be printed.
cd ../moved || exit 1
{ row 1 Z 1; echo; } > allCountries.txt
empty_others
"$program" serve <<< 'load 2024-05-01' > /dev/full
check a_reply_that_is_lost "$?" 3
check the_load_was_stored "$(places .)" "$(row 1 Z 1)"$'\nok 1\nok 0\nok 0\nok 0\nrefused sequence 2024-05-01\nstatus 0'

# Files that are no mirror: nothing is printed, and they stay.
cd ../zeros || exit 1
head -c 4096 /dev/zero > mirror.root
expect a_root_of_zeros_alone 6 '' serve <<< $'get 1\nload 2024-03-01'
check its_bytes_stay "$(stat -c '%n %s' -- * | tr '\n' ' ') $(cmp mirror.root <(head -c 4096 /dev/zero) && echo same)" 'mirror.left 0 mirror.log 0 mirror.mark 0 mirror.right 0 mirror.root 4096  same'

# no_mirror NAME: what was made of the five files in this folder is refused with status 6, and stays.
no_mirror() {
    local made
    made=$(sums .)
    expect "$1" 6 '' serve <<< $'get 1\nload 2024-03-01'
    check "$1_stays" "$(sums .)" "$made"
    cp ../first/mirror.* .
}
cd ../bad || exit 1
cp ../first/mirror.* ../first/allCountries.txt .
head -c 4096 /dev/zero > mirror.root
no_mirror a_root_of_zeros
printf '\1' > mirror.mark
: > mirror.log
no_mirror an_open_gate_with_no_log
for side in mirror.left mirror.right; do : > $side; done
no_mirror no_pages
check the_mirror_itself "$(places .)" "$after_two_days"

rm mirror.log && mkdir mirror.log
expect a_folder_as_area 3 '' serve <<< 'get 1'
rmdir mirror.log

# What opens an empty mirror opens one of 20,000 rows and finds a row of it, in the same memory: nothing of the gazetteer is read. A
# program that can't be loaded ends with 127, and a stack that can't grow by a signal, 139 of the shell.
mkdir ../large && cd ../large || exit 1
awk -v line="$(row 1 A 1)" 'BEGIN { sub(/^1/, "", line); for (id = 1; id <= 20000; id++) print id line }' > allCountries.txt
empty_others
"$program" serve <<< 'load 2024-03-01' > ../reply
large=$(sums .)
# get_within KILOBYTES ID: what a run with so much memory answers.
get_within() { (ulimit -v "$1"; exec "$program" serve <<< "get $2") 2> ../trace; echo "status $?"; }
limit=1000
until got=$(cd ../refused && get_within $limit 1); [ "$got" = $'refused notloaded\nstatus 0' ] || [ $limit -gt 100000 ]; do
    case $got in 'status 127' | 'status 139') ;; *) check no_memory_to_begin "$got" 'status 5' ;; esac
    limit=$((limit + 100))
done
check the_same_memory_opens_the_large_mirror "$(get_within $((limit + 200)) 20000)" "$(row 20000 A 1)"$'\nok 1\nstatus 0'
check the_large_mirror_stays "$(sums .)" "$large"

# Root writes where others may not.
if [ "$(id -u)" = 0 ]; then
    echo "skipped: a folder that can't be written, since root may write it"
else
    mkdir ../closed && cd ../closed && chmod a-w .
    expect a_folder_that_is_closed 3 '' serve <<< 'get 1'
    check it_stays_empty "$(ls -A)" ''
    chmod u+w .
fi

finish

#!/usr/bin/env bash
# `make` and `trial`: the made table, and a whole run over it. What is expected was made by tests/lib/made_rows.py, from the
# formats alone.
set -u
. "$(dirname "$0")/lib/expect.bash"
made() { python3 "$top/tests/lib/made_rows.py" "$@"; }
same_files() { cmp -s "$1" "$2" && echo same; }

cd "$folder" || exit 1
expect two_rows 0 $'1\tPlace 1\tPlace 1\t\t-73.193\t54.465\tA\tADM1\tXA\t\t01\t\t\t\t650073\t\t\tEtc/UTC\t2000-01-01\n2\tPlace 2\tPlace 2\t\t68.187\t-154.248\tP\tPPL\tXA\t\t01\t\t\t\t211272\t\t\tEtc/UTC\t2000-01-01\n' make 0 2 < /dev/null
for words in '7 1000' '0 1' '18446744073709551615 257' '2147483646 512'; do
    read -r start rows <<< "$words"
    "$program" make "$start" "$rows" > got.txt < /dev/null
    made "$start" "$rows" > wanted.txt
    check "make $words" "$(same_files got.txt wanted.txt)" same
done
for words in 'make' 'make 7' 'make 7 0' 'make 7 1000001' 'make 18446744073709551616 1' 'make -1 1' 'make 7 1 1' 'trial' 'trial 7' 'trial 7 0'; do
    read -r -a word <<< "$words"
    expect "words <$words>" 2 '' "${word[@]}" < /dev/null
done

# A million rows: each line is accepted by a scan, none is asked for of the source, and the memory is the same for one row.
"$program" make 7 1000000 > million.txt < /dev/null
check a_million_lines "$(wc -l < million.txt)" 1000000
expect row_5_of_a_million 0 "$(sed -n 5p million.txt)"$'\nok 1\n' scan 5 < million.txt
expect last_of_a_million 0 "$(tail -1 million.txt)"$'\nok 1\n' scan 1000000 < million.txt
most=$( { /usr/bin/time -f %M "$program" make 7 1000000 > /dev/null < /dev/null; } 2>&1)
check "memory of make: $most KiB" "$((most < 8192))" 1
printf 'untouched\n' > source.txt
left=$( { "$program" make 7 3 > /dev/null; cat; } < source.txt)
check the_source_stays "$left" untouched
check no_mirror_is_made "$(ls mirror.* 2> /dev/null)" ''

# A device that is full, and an output that is closed.
"$program" make 7 1000 > /dev/full < /dev/null
check full_output $? 3
"$program" make 7 1000 >&- < /dev/null
check closed_output $? 3

# A trial prints what `serve` prints over the same files and requests; the second one finds a mirror.
printf 'load 2000-01-01\nday 2000-01-02\nsearch maxRows=3\n' > requests.txt
for words in '0 2' '7 1000' '7 3050' '7 100000'; do
    read -r start rows <<< "$words"
    rm -rf of_serve of_trial
    mkdir of_serve of_trial
    made "$start" "$rows" of_serve
    (cd of_serve && "$program" serve < ../requests.txt > ../wanted.txt)
    (cd of_trial && "$program" trial "$start" "$rows" < /dev/null > ../got.txt)
    check "trial $words" "$? $(same_files got.txt wanted.txt)" '0 same'
    (cd of_trial && "$program" trial "$start" "$rows" < /dev/null > ../got.txt)
    check "trial $words again" "$? $(cat got.txt)" '1 refused trial'
done
finish

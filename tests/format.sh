#!/usr/bin/env bash
# The five files of a mirror, byte for byte after docs/FORMAT.md: what loads and days write is read by tests/lib/mirror.py, which knows
# the format alone; mirrors that it makes are opened by the program; and files that are no mirror, or whose pages are damaged, are told.
set -u
. "$(dirname "$0")/lib/expect.bash"

cd "$folder" || exit 1
a1=$(row 1 A 1) b2=$(row 2 B 2) c3=$(row 3 C 3) x2=$(row 2 X 9) d4=$(row 4 D 4)

# bytes NUMBER..: these bytes.
bytes() { local code; for code in "$@"; do printf "\\x$(printf %x "$code")"; done; }
zeros() { head -c "$1" /dev/zero; }
# lines LINE..: each with an LF.
lines() { [ $# -eq 0 ] || printf '%s\n' "$@"; }
# fresh NAME: an empty folder, and this script in it.
fresh() { mkdir "$folder/$1" && cd "$folder/$1" || exit 1; }
# reads: what the files of this folder hold, as the format says.
reads() { python3 "$top/tests/lib/mirror.py" read "${1:-.}" 2>&1; }
# writes SEED DATE: makes a mirror in this folder of the five files rows, alternates, links, countries and codes.
writes() { python3 "$top/tests/lib/mirror.py" write . "$1" "$2" rows alternates links countries codes; }
# serves REQUEST..: what a run prints, and its status.
serves() { printf '%s\n' "$@" | "$program" serve; echo "status $?"; }
# replies REQUEST..: the same without the status.
replies() { printf '%s\n' "$@" | "$program" serve; }
# holds ROWS ALTERNATES LINKS COUNTRIES CODES, each a file's name: the five tables as the reader prints them.
holds() {
    local name
    for name in rows alternates links countries codes; do
        printf '%s %s\n' "$(wc -l < "$1")" "$name"
        cat "$1"
        shift
    done
}
: > none

# What changes write: the first load is in Left, a day changes the pages of the area where the gazetteer is, and the next load takes the
# other area. A leaf has five keys of each row, of tags 1, 7, 7, 8 and 10. The gate is closed.
fresh written
lines "$a1" "$b2" "$c3" > allCountries.txt
lines "$x2" > modifications-2024-03-02.txt
printf '3\tC\tgone\n' > deletes-2024-03-02.txt
lines "$d4" > modifications-2024-03-03.txt
: > deletes-2024-03-03.txt
empty_others
check a_load "$(replies 'load 2024-03-01')" 'ok load 2024-03-01'
check a_load_is "$(reads)" "left, 2024-03-01, height 1, leaf of 15, 15 keys"$'\n'"$(holds allCountries.txt ../none ../none ../none ../none)"
# Version 1, Left, height 1, the topmost page, the least page that was never taken, no free page, the day 739,311, three rows.
check its_root "$(od -An -v -tu1 -N 48 mirror.root | tr -s ' \n' ' ')" \
    " 6 1 0 0 3 1 0 0 0 0 0 1 0 0 0 3 0 0 0 0 0 11 71 239 0 0 0 3 0 0 0 0 0 0 0 0 0 0 0 0 0 0 0 0 0 0 0 2 "
check its_files "$(stat -c '%n %s' mirror.left mirror.right mirror.root | tr '\n' ' ') $(od -An -tu1 mirror.mark)" 'mirror.left 12288 mirror.right 0 mirror.root 4096     0'
check a_day "$(replies 'day 2024-03-02')" 'ok day 2024-03-02'
lines "$a1" "$x2" > ../two
check a_day_is "$(reads)" "left, 2024-03-02, height 1, leaf of 10, 10 keys"$'\n'"$(holds ../two ../none ../none ../none ../none)"
check the_next_day "$(replies 'day 2024-03-03')" 'ok day 2024-03-03'
lines "$a1" "$x2" "$d4" > ../three
check the_next_day_is "$(reads)" "left, 2024-03-03, height 1, leaf of 15, 15 keys"$'\n'"$(holds ../three ../none ../none ../none ../none)"
check the_next_load "$(replies 'load 2024-02-29')" 'ok load 2024-02-29'
check the_next_load_is "$(reads)" "right, 2024-02-29, height 1, leaf of 15, 15 keys"$'\n'"$(holds allCountries.txt ../none ../none ../none ../none)"
: > allCountries.txt
check a_load_of_no_row "$(replies 'load 2024-02-28')" 'ok load 2024-02-28'
check a_load_of_no_row_is "$(reads)" "left, 2024-02-28, height 1, leaf of 0, 0 keys"$'\n'"$(holds ../none ../none ../none ../none ../none)"

# No change that is refused writes to a file.
before=$(sha256sum "${mirror[@]}")
rm allCountries.txt
for request in 'load 2024-03-02' 'day 2024-03-02' 'day' 'day 2024-03-03'; do
    check "refused: $request" "$(replies "$request" | head -c 8) $(sha256sum "${mirror[@]}")" "refused  $before"
done

# Five tables: rows, alternates by id, links by child, class of the type and parent, countries and admin codes by code. The files have
# them in another order, with comments and with lines that are replaced.
e1=$'10\t1\tde\tEins' z2=$'11\t2\tde\tZwei'
l1=$'1\t2\tADM' l2=$'3\t2\tADM' l3=$'1\t2' l4=$'1\t2\tother' l5=$'2\t10\tADM'
k1=$'A1\t\t\t\t\t\t\t\t\t\t\t\t\t\t\t\t1' k2=$'AA\t\t\t\t\t\t\t\t\t\t\t\t\t\t\t\t2' k3=$'AAA\t\t\t\t\t\t\t\t\t\t\t\t\t\t\t\t3'
m1=$'AA.01\tOne\tOne\t2' m2=$'AA.01.001\tTwo\tTwo\t3' m3=$'AA.1\tThree\tThree\t1'
fresh five
lines "$a1" "$b2" > rows
lines "$e1" "$z2" > alternates
lines "$l1" "$l2" "$l3" "$l4" "$l5" > links
lines "$k1" "$k2" "$k3" > countries
lines "$m1" "$m2" "$m3" > codes
lines "$b2" "$a1" > allCountries.txt
lines "$z2" "$e1" > alternateNamesV2.txt
lines "$l5" $'1\t2\tANY' "$l3" "$l2" "$l4" "$l1" > hierarchy.txt
lines '# a comment' "$k3" '' "$k1" "${k2%2}7" "$k2" '#' > countryInfo.txt
lines "$m3" "$m1" $'AA.01.001\t\t\t' > admin1CodesASCII.txt
lines "$m2" > admin2Codes.txt
lines "$c3" > modifications-2024-03-02.txt
: > deletes-2024-03-02.txt
empty_others
check a_load_of_six_files "$(replies 'load 2024-03-01')" 'ok load 2024-03-01'
check it_has_five_tables "$(reads | tail -n +2)" "$(holds rows alternates links countries codes)"
check a_day_leaves_links_countries_and_codes "$(replies 'day 2024-03-02')" 'ok day 2024-03-02'
cat rows <(lines "$c3") > more_rows
check it_has_one_row_more "$(reads | tail -n +2)" "$(holds more_rows alternates links countries codes)"

# The same, written by the format alone: it is opened and asked, twice, and a day is applied to it.
asked=('hierarchy 2' 'children 1' 'admin AA.01.001' 'admin AA' 'search name_equals=zwei' 'day 2000-01-01')
told="$a1"$'\n'"$b2"$'\nok 2\n'"$b2"$'\nok 1\n'"$m2"$'\nok 1\nok 0\n'"$b2"$'\nok 1\nrefused sequence 2024-03-01\nstatus 0'
for seed in 1 2; do
    fresh "five_by_hand_$seed"
    cp ../five/*.txt ../five/rows ../five/alternates ../five/links ../five/countries ../five/codes .
    writes "$seed" 2024-03-01
    before=$(sha256sum mirror.root mirror.left mirror.right 2>&1)
    check "five_by_hand_$seed" "$(serves "${asked[@]}")" "$told"
    check "five_by_hand_$seed again" "$(serves "${asked[@]}")" "$told"
    [ -s mirror.left ] || rm mirror.left
    [ -s mirror.right ] || rm mirror.right
    check "questions change nothing $seed" "$(sha256sum mirror.root mirror.left mirror.right 2>&1)" "$before"
    check "a day over it $seed" "$(replies 'day 2024-03-02')" 'ok day 2024-03-02'
    check "the day's pages $seed" "$(reads | tail -n +2)" "$(holds ../five/more_rows alternates links countries codes)"
done

# A tree of three levels, long records and free pages, written by the format alone: 3,000 rows, of which each hundredth has more than
# a page, alternates, and admin codes with the same first 23 bytes. Every row is found, and a day that changes each tenth and deletes each
# hundredth leaves what it must.
fresh large
awk 'BEGIN { OFS = "\t"; for (id = 1; id <= 3000; id++) { long = ""; for (n = id % 100 ? 0 : id * 20; n > 0; n -= 10) long = long "0123456789"
    print id, "Näme " id, "Name " id, long, (id % 90) "." (id % 7), "-" (id % 180), id % 50 == 1 ? "A" : "P", id % 50 == 1 ? "ADM1" : "PPL", "XA", "", sprintf("%02d", id % 20), "", "", "", id, "", "", "Etc/UTC", "2000-01-01" } }' > rows
awk 'BEGIN { for (id = 1; id <= 500; id++) printf "%d\t%d\tde\tNahme %d\n", id, id * 7, id }' > alternates
awk 'BEGIN { for (id = 1; id <= 300; id++) printf "%d\t%d%s\n", id, id + 1, id % 3 ? "\tADM" : "" }' > links
lines $'XA\t\t\t\t\t\t\t\t\t\t\t\t\t\t\t\t1' > countries
awk 'BEGIN { for (n = 10; n < 40; n++) printf "ABCDEFGHIJKLMNOPQRSTUVW%d\tName\tName\t%d\n", n, n }' > codes
awk -F '\t' -v OFS='\t' '$1 % 10 == 0 { $2 = "New " $1; $15 += 1000000; print }' rows > modifications-2024-03-02.txt
seq 100 100 3000 > deletes-2024-03-02.txt
empty_others
awk -F '\t' 'NR == FNR { changed[$1] = $0; next } $1 % 100 { print ($1 in changed) ? changed[$1] : $0 }' modifications-2024-03-02.txt rows > rows_after
seq 1 3000 | sed 's/^/get /' > gets
awk -F '\t' '{ print; print "ok 1" }' rows > got
awk -F '\t' 'NR == FNR { held[$1] = $0; next } { print ($1 in held) ? held[$1] "\nok 1" : "ok 0" }' rows_after rows > got_after
for seed in 3 4; do
    rm -f "${mirror[@]}"
    writes "$seed" 2024-03-01
    check "its height $seed" "$(reads | sed -n '1s/.*\(height .\), inner.*/\1/p')" 'height 3'
    check "every row $seed" "$("$program" serve < gets | cmp - got && echo same)" same
    check "a name in another spelling $seed" "$(replies 'search name_equals=NA'$'\xcc\x88''ME 7')" "$(sed -n 7p rows)"$'\nok 1'
    check "an alternate name $seed" "$(replies 'search name_equals=nahme 300')" "$(sed -n 2100p rows)"$'\nok 1'
    check "each code $seed" "$(sed 's/\t.*//; s/^/admin /' codes | "$program" serve | cmp - <(sed 's/$/\nok 1/' codes) && echo same)" same
    check "a day over it $seed" "$(replies 'day 2024-03-02')" 'ok day 2024-03-02'
    check "the day's pages $seed" "$(reads | tail -n +2 | cmp - <(holds rows_after alternates links countries codes) && echo same)" same
    check "every row after it $seed" "$("$program" serve < gets | cmp - got_after && echo same)" same
done
# The same by loads and days of the program.
cp rows allCountries.txt
cp alternates alternateNamesV2.txt
cp links hierarchy.txt
cp countries countryInfo.txt
cp codes admin1CodesASCII.txt
: > admin2Codes.txt
rm -f "${mirror[@]}"
check a_large_load "$(replies 'load 2024-03-01') $(reads | tail -n +2 | cmp - <(holds rows alternates links countries codes) && echo same)" 'ok load 2024-03-01 same'
check a_day_over_it "$(replies 'day 2024-03-02') $(reads | tail -n +2 | cmp - <(holds rows_after alternates links countries codes) && echo same)" 'ok day 2024-03-02 same'

# refuses NAME: the files of this folder are no mirror: status 6, nothing is printed, and they stay.
refuses() {
    local held
    held=$(sha256sum mirror.*)
    check "$1" "$(serves 'get 1' 'load 2024-03-01')" 'status 6'
    find . -name 'mirror.*' -size 0 -delete
    check "$1 stays" "$(sha256sum mirror.*)" "$held"
}
# Root pages that are none. with AT BYTE: the root page of the load with another byte at a place.
fresh roots
cp ../five/*.txt .
replies 'load 2024-03-01' > ../reply
find . -name 'mirror.*' -size 0 -delete
cp mirror.root ../root_of_five
with() { head -c "$1" ../root_of_five; bytes "$2"; tail -c +$(($1 + 2)) ../root_of_five; }
while read -r at byte what; do
    with "$at" "$byte" > mirror.root
    refuses "$what"
done << 'LINES'
0 5 another kind
1 0 version 0
1 2 version 2
2 1 a byte behind the version
4 2 the area of the root
4 5 an area past the last
5 0 no height
5 7 a height past the last
6 1 a byte behind the height
20 1 a date past the last
48 1 a byte behind the fields
4095 1 the last byte of the page
LINES
zeros 4096 > mirror.root
refuses zeros

# A mirror of version 0, as the program wrote it before there were pages: one text of lines in Left, and its length in the root.
fresh of_version_0
{ zeros 4096; lines "$a1" "$b2" "$c3"; } > mirror.left
{ bytes 6 0 0 0 3 0 0 0 0 0 0 0 0 0 0 120 0 0 0 0 0 11 71 239 0 0 0 3; zeros 4068; } > mirror.root
refuses 'a mirror of version 0'

# Fewer bytes than a page are no root page: nothing was loaded.
nothing=$'refused notloaded\nrefused notloaded\nstatus 0'
fresh short_roots
cp ../roots/mirror.left .
for length in 0 1 4095; do
    head -c "$length" ../root_of_five > mirror.root
    check "a root of $length bytes" "$(serves 'get 1' 'search name_equals=eins')" "$nothing"
done
# What stands behind the root page, behind the pages and in page 0 isn't looked at.
fresh more
cp ../roots/mirror.left .
{ cat ../root_of_five; printf more; } > mirror.root
printf more >> mirror.left
head -c 4096 /dev/zero | tr '\0' '\356' | dd of=mirror.left conv=notrunc status=none
check more_bytes "$(serves 'get 2')" "$b2"$'\nok 1\nstatus 0'
# Any byte but 1 is a closed gate.
bytes 2 > mirror.mark
check a_gate_of_2 "$(serves 'get 2')" "$b2"$'\nok 1\nstatus 0'
# An open gate over a log that isn't in form.
for log in '' '0 0 0 0 0 0 0 2 0 0 0 0 0 0 0 0'; do
    bytes 1 > mirror.mark
    # shellcheck disable=SC2086 # the bytes are words
    bytes $log > mirror.log
    check "an open gate over a log of ${#log}" "$(serves 'get 1') $(od -An -tu1 mirror.mark)" 'status 6    1'
done

# Damaged pages: each page in turn is made zeros, 255s or another page. Each question is answered as before, or the run ends
# with 6 before its answer is whole: no answer is a wrong one.
fresh damaged
for name in rows alternates links countries codes; do head -n 300 ../large/$name > $name; done
writes 5 2024-03-01
side=mirror.right
cp $side ../sound
cp mirror.root ../sound_root
: > requests
for id in $(seq 3 33 300); do printf 'get %d\nsearch name_equals=name %d\nsearch name_equals=nahme %d\nchildren %d\nhierarchy %d\n' "$id" "$id" "$id" "$id" "$id" >> requests; done
printf 'search north=10\tsouth=5\teast=-3\twest=-90\nsearch country=XA\tmaxRows=1000\nadmin ABCDEFGHIJKLMNOPQRSTUVW12\n' >> requests
"$program" serve < requests > ../sound_replies
check sound_pages "$? $(reads | sed -n '1s/.*\(height .\), .*/\1/p')" '0 height 2'
pages=$(($(stat -c %s ../sound) / 4096 - 1))
# spoil PAGE HOW: this page of the area is spoiled.
spoil() {
    cp ../sound $side
    case $2 in
        zeros) zeros 4096 ;;
        ones) zeros 4096 | tr '\0' '\377' ;;
        another) tail -c +$(($1 % pages * 4096 + 4097)) ../sound | head -c 4096 ;;
    esac | dd of=$side bs=4096 seek="$1" conv=notrunc status=none
}
wrong='' met=0
ways=(zeros ones another)
for page in $(seq 1 "$pages"); do
    how=${ways[page % 3]}
    spoil "$page" "$how"
    "$program" serve < requests > ../replies
    status=$?
    cmp -s -n "$(stat -c %s ../replies)" ../replies ../sound_replies || wrong+="page $page by $how: another answer; "
    case $status in
        0) ;;
        6) met=$((met + 1)) ;;
        *) wrong+="page $page by $how: status $status; " ;;
    esac
done
check no_wrong_answer "$wrong" ''
echo "$met of $pages damaged pages were met"
check some_pages_were_met "$((met > 20))" 1
# A cut area: the pages behind its end are damaged.
head -c $((pages / 2 * 4096)) ../sound > $side
"$program" serve < requests > ../replies
check a_cut_area "$? $(cmp -s -n "$(stat -c %s ../replies)" ../replies ../sound_replies && echo a front)" '6 a front'
# The other area is what the root doesn't name: it isn't read.
cp ../sound mirror.left
zeros 4096 > $side
check the_other_area_is_not_read "$(serves 'get 1')" 'status 6'
cp ../sound $side
zeros 4096 > mirror.left
check only_the_named_area_is_read "$("$program" serve < requests | cmp - ../sound_replies && echo same)" same
# A load over damaged pages makes a sound mirror.
spoil "$(od -An -tu1 -j 11 -N 1 mirror.root | tr -d ' ')" zeros
cp ../five/*.txt .
check a_load_over_damage "$(serves 'load 2024-03-01' 'get 2')" $'ok load 2024-03-01\n'"$b2"$'\nok 1\nstatus 0'

finish

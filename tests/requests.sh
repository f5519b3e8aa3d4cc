#!/usr/bin/env bash
# `serve` over a folder of files, through standard input and output: what it prints, and with which status. tests/mirror.sh
# has what it keeps from one run to the next.
set -u
. "$(dirname "$0")/lib/expect.bash"

cd "$folder" || exit 1
{ row 1 A 1; echo; row 2 B 2; echo; row 3 C 3; echo; } > allCountries.txt
{ row 2 X 9; echo; } > modifications-2024-03-02.txt
printf '3\tC\tgone\n' > deletes-2024-03-02.txt
empty_others

expect no_requests 0 '' serve < /dev/null
expect_anew a_load_and_a_get 0 $'ok load 2024-03-01\n'"$(row 2 B 2)"$'\nok 1\nok 0\n' serve <<< $'load 2024-03-01\nget 2\nget 4'
expect_anew no_lf_at_the_end 0 $'refused notloaded\n' serve < <(printf 'get 1')
expect_anew a_day 0 $'ok load 2024-03-01\nok day 2024-03-02\n'"$(row 2 X 9)"$'\nok 1\nok 0\n' serve <<< $'load 2024-03-01\nday 2024-03-02\nget 2\nget 3'
expect_anew a_long_request 0 $'refused request length\nrefused notloaded\n' serve < <(head -c 4097 /dev/zero | tr '\0' g; printf '\nget 1\n')
expect a_request_that_just_fits 0 $'refused request verb\n' serve < <(head -c 4096 /dev/zero | tr '\0' g)
expect bytes_that_are_no_text 0 $'refused request utf8\n' serve < <(printf 'get \xff\n')
expect a_broken_sequence 0 $'refused request utf8\n' serve < <(printf '\xc3\n')
expect a_cr_behind_an_id 0 $'refused request id\n' serve < <(printf 'get 1\r\n')
printf '5\n2\t\xff\n' > deletes-2024-03-02.txt
expect_anew a_delete_that_is_no_text 0 $'ok load 2024-03-01\nrefused malformed deletes-2024-03-02.txt 2 utf8\n'"$(row 3 C 3)"$'\nok 1\n' serve <<< $'load 2024-03-01\nday 2024-03-02\nget 3'
printf '3\tC\tgone\n' > deletes-2024-03-02.txt

# A row of 65,535 bytes is the longest.
long_row() { printf '7\t%s%s' "$(head -c $(($1 - 38)) /dev/zero | tr '\0' n)" $'\t\t\t0\t0\tP\tPPL\tAA\t\t\t\t\t\t1\t\t\t\t2024-02-01'; }
mkdir long && cd long || exit 1
long_row 65535 > allCountries.txt
empty_others
expect_anew the_longest_row 0 $'ok load 2024-03-01\n'"$(long_row 65535)"$'\nok 1\n' serve <<< $'load 2024-03-01\nget 7'
long_row 65536 > allCountries.txt
expect_anew a_row_of_a_byte_more 0 $'refused malformed allCountries.txt 1 length\nrefused notloaded\n' serve <<< $'load 2024-03-01\nget 7'
long_row 65535 > allCountries.txt
long_alternate() { printf '7\t7\tde\t%s' "$(head -c $(($1 - 7)) /dev/zero | tr '\0' n)"; }
long_alternate 65535 > alternateNamesV2.txt
expect_anew the_longest_alternate 0 $'ok load 2024-03-01\n'"$(long_row 65535)"$'\nok 1\n' serve <<< $'load 2024-03-01\nsearch name_startsWith=nnn\tsearchlang=de'
long_alternate 65536 > alternateNamesV2.txt
expect_anew an_alternate_of_a_byte_more 0 $'refused malformed alternateNamesV2.txt 1 length\nrefused notloaded\n' serve <<< $'load 2024-03-01\nget 7'
: > alternateNamesV2.txt

# The same of the other files. A comment has no other check than that of its length.
# long_line KIND LENGTH
long_line() {
    local front
    case $1 in
        hierarchy.txt) front=$'7\t8\t' ;;
        countryInfo.txt) front=$'AA\t\t\t\t\t\t\t\t\t\t\t\t\t\t\t\t' ;;
        comment) front='#' ;;
        *) front=$'AA.01\t\t\t' ;;
    esac
    printf '%s' "$front"
    head -c $(($2 - ${#front})) /dev/zero | tr '\0' '\376'
}
for kind in hierarchy.txt countryInfo.txt comment admin1CodesASCII.txt admin2Codes.txt; do
    file=${kind/comment/countryInfo.txt}
    long_line $kind 65536 > "$file"
    expect_anew "a_line_of_a_byte_more_$kind" 0 "refused malformed $file 1 length"$'\nrefused notloaded\n' serve <<< $'load 2024-03-01\nget 7'
    long_line $kind 65535 | tr '\376' n > "$file"
    expect_anew "the_longest_line_$kind" 0 $'ok load 2024-03-01\nok 0\n' serve <<< $'load 2024-03-01\nget 8'
    : > "$file"
done
long_line comment 65535 > countryInfo.txt
expect_anew a_comment_that_is_no_text 0 $'ok load 2024-03-01\nok 0\n' serve <<< $'load 2024-03-01\nget 8'
long_line countryInfo.txt 65535 > countryInfo.txt
expect_anew a_country_that_is_no_text 0 $'refused malformed countryInfo.txt 1 utf8\nrefused notloaded\n' serve <<< $'load 2024-03-01\nget 8'
long_line admin1CodesASCII.txt 65535 | tr '\376' n > admin1CodesASCII.txt
: > countryInfo.txt
expect_anew the_longest_code_is_printed 0 $'ok load 2024-03-01\n'"$(cat admin1CodesASCII.txt)"$'\nok 1\n' serve <<< $'load 2024-03-01\nadmin AA.01'
cd ..
expect_anew no_file 0 $'ok load 2024-03-02\nrefused absent modifications-2024-03-03.txt\n' serve <<< $'load 2024-03-02\nday 2024-03-03'
mkdir modifications-2024-03-03.txt
expect_anew a_folder_in_place_of_a_file 0 $'ok load 2024-03-02\nrefused shelf modifications-2024-03-03.txt\n' serve <<< $'load 2024-03-02\nday 2024-03-03'
rmdir modifications-2024-03-03.txt
for file in "${load_files[@]}"; do
    mv "$file" set_aside && mkdir "$file"
    expect_anew "a_folder_in_place_of_$file" 0 "refused shelf $file"$'\nrefused notloaded\n' serve <<< $'load 2024-03-02\nget 1'
    rmdir "$file"
    expect_anew "no_$file" 0 "refused absent $file"$'\nrefused notloaded\n' serve <<< $'load 2024-03-02\nget 1'
    mv set_aside "$file"
done
expect words_behind_serve 2 '' serve now < /dev/null

# Ten days in one run, over a leap day and a turn of the month.
requests=$'load 2024-02-25\n'
replies=$'ok load 2024-02-25\n'
for day in 2024-02-26 2024-02-27 2024-02-28 2024-02-29 2024-03-01 2024-03-02 2024-03-03 2024-03-04 2024-03-05 2024-03-06; do
    { row 2 "$day" 7; echo; } > "modifications-$day.txt"
    : > "deletes-$day.txt"
    empty_others
    requests+="day $day"$'\nget 2\n'
    replies+="ok day $day"$'\n'"$(row 2 "$day" 7)"$'\nok 1\n'
done
expect_anew ten_days 0 "$replies" serve <<< "${requests%$'\n'}"

# A reply comes before the next request is sent.
remove_mirror
mkfifo in out
timeout 10 "$program" serve < in > out &
exec 3> in 4< out
answers=
for request in 'load 2024-03-01' 'get 3' 'what'; do
    printf '%s\n' "$request" >&3
    read -r -t 5 -u 4 answer || answer=none
    answers+="$answer;"
    case $request in get*) read -r -t 5 -u 4 answer || answer=none; answers+="$answer;" ;; esac
done
exec 3>&- 4<&-
wait
check each_reply_at_once "$answers" "ok load 2024-03-01;$(row 3 C 3);ok 1;refused request verb;"

"$program" serve <<< 'get 1' > /dev/full
check a_full_device "$?" 3
expect a_folder_as_input 4 '' serve < "$folder"

# A real extract under the name of the dump, where Debian's libtimezonemap-data has put one, and a made day over it.
cities=/usr/share/libtimezonemap/ui/cities15000.txt
if [ -r "$cities" ]; then
    mkdir real && cd real
    cp "$cities" allCountries.txt
    grep -P '^2988507\t' "$cities" | sed 's/\tParis\tParis\t/\tParis\tPARIS\t/' > modifications-2024-03-02.txt
    printf '3040051\tles Escaldes\tmade\n' > deletes-2024-03-02.txt
    empty_others
    expect a_real_extract_and_a_day 0 $'ok load 2024-03-01\n'"$(grep -P '^2988507\t' "$cities")"$'\nok 1\nok day 2024-03-02\n'"$(cat modifications-2024-03-02.txt)"$'\nok 1\nok 0\n' \
        serve <<< $'load 2024-03-01\nget 2988507\nday 2024-03-02\nget 2988507\nget 3040051'
else
    echo "skipped: no $cities (Debian's libtimezonemap-data)"
fi

finish

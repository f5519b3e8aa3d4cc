#!/usr/bin/env bash
# `scan` over real standard input and output: what it prints, and with which status.
set -u
. "$(dirname "$0")/lib/expect.bash"

{ row 1 A 1; echo; row 2 B 2; echo; row 2 C 3; echo; } > "$folder/rows.txt"
{ row 1 A 0; echo; row 1 A 0 | sed 's/\t2024-02-01$//'; } > "$folder/no_column.txt"
expect an_empty_source 0 $'ok 0\n' scan 5 < /dev/null
expect the_last_of_two_rows 0 "$(row 2 C 3)"$'\nok 1\n' scan 2 < "$folder/rows.txt"
expect no_row_with_the_id 0 $'ok 0\n' scan 3 < "$folder/rows.txt"
expect no_lf_at_the_end 0 "$(row 7 G 1)"$'\nok 1\n' scan 7 < <(row 7 G 1)
expect a_column_is_missing 1 $'refused malformed - 2 columns\n' scan 1 < "$folder/no_column.txt"

# Bytes that are no text are told before the columns, and a line that is too long before both.
expect bytes_that_are_no_text 1 $'refused malformed - 1 utf8\n' scan 1 < <(printf '1\t\t\t\t0\t0\t\t\t\t\t\t\t\t\t\t\t\tUTC\t2024-02-0\xc3')
expect utf8_before_columns 1 $'refused malformed - 1 utf8\n' scan 1 < <(printf '\xff')
expect utf8_at_the_longest 1 $'refused malformed - 1 utf8\n' scan 1 < <(head -c 65535 /dev/zero | tr '\0' '\377')
expect length_before_utf8 1 $'refused malformed - 1 length\n' scan 1 < <(head -c 65536 /dev/zero | tr '\0' '\377')

# A row of 65,535 bytes is the longest.
long_row() { printf '7\t%s%s' "$(head -c $(($1 - 38)) /dev/zero | tr '\0' n)" $'\t\t\t0\t0\tP\tPPL\tAA\t\t\t\t\t\t1\t\t\t\t2024-02-01'; }
check its_length "$(long_row 65535 | wc -c)" 65535
expect the_longest_line 0 "$(long_row 65535)"$'\nok 1\n' scan 7 < <(long_row 65535)
expect a_line_of_a_byte_more 1 $'refused malformed - 1 length\n' scan 7 < <(long_row 65536)

# Bytes that come one by one are the same lines.
one_by_one() { local byte; while IFS= read -r -N 1 byte; do printf %s "$byte"; done; }
expect one_byte_a_read 0 "$(row 2 C 3)"$'\nok 1\n' scan 2 < <(one_by_one < "$folder/rows.txt")

for words in '' x 'scan ' 'serve now' 'serve --frames 7' 'serve ' Serve open; do
    IFS=' ' read -r -a word <<< "$words"
    [ "$words" = "${words% }" ] || word+=('')
    expect "words <$words>" 2 '' "${word[@]}" < "$folder/rows.txt"
done
expect a_word_alone 2 '' scan < "$folder/rows.txt"
expect no_id 2 '' scan x < "$folder/rows.txt"
expect two_ids 2 '' scan 1 2 < "$folder/rows.txt"
expect an_id_of_zero 2 '' scan 0 < "$folder/rows.txt"
expect no_words 2 '' < "$folder/rows.txt"
expect a_word_that_is_not_utf8 8 '' scan $'\xff' < "$folder/rows.txt"

# A refused line is answered at once, while the sender still holds its end of the pipe.
mkfifo "$folder/in" "$folder/out"
timeout 10 "$program" scan 1 < "$folder/in" > "$folder/out" &
exec 3> "$folder/in" 4< "$folder/out"
printf 'x\n' >&3
read -r -t 5 -u 4 answer || answer=none
exec 3>&- 4<&-
wait
check heard_at_once "$answer" 'refused malformed - 1 columns'

finish

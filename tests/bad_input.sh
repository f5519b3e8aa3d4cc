#!/usr/bin/env bash
# Bytes of any kind end the program with one of its statuses and within bounds.
set -u
. "$(dirname "$0")/lib/expect.bash"

tabs() { head -c "$1" /dev/zero | tr '\0' '\t'; }

expect nul_bytes 1 $'refused malformed - 1 columns\n' scan 1 < <(head -c 1000 /dev/zero)
expect nul_bytes_past_the_longest_line 1 $'refused malformed - 1 length\n' scan 1 < <(head -c 10000000 /dev/zero)
expect tabs_alone 1 $'refused malformed - 1 columns\n' scan 1 < <(tabs 65535)
expect too_many_tabs 1 $'refused malformed - 1 length\n' scan 1 < <(tabs 65536)
expect eighteen_tabs 1 $'refused malformed - 1 id\n' scan 1 < <(tabs 18)
expect ten_million_empty_lines 1 $'refused malformed - 1 columns\n' scan 1 < <(yes '' | head -n 10000000)
expect ten_million_good_rows 0 "$(row 3 C 5)"$'\nok 1\n' scan 3 < <(yes "$(row 3 C 5)" | head -n 10000000)
got=$("$program" scan 1 < <(head -c 100000 "$program") | sed -E 's/^refused malformed - [0-9]+ [a-z0-9]+$/a refusal/')
check bytes_of_a_program "$got" 'a refusal'

finish

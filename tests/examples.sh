#!/usr/bin/env bash
# The first sessions of the README give what it shows.
set -u
. "$(dirname "$0")/lib/expect.bash"

# session COMMAND: what the README shows behind the line `    $ COMMAND`, up to the next command or blank line, without its indent.
session() { wanted="    \$ $1" awk '$0 == ENVIRON["wanted"] { inside = 1; next } inside && (/^$/ || /^    \$ /) { exit } inside { print substr($0, 5) }' "$top/README.md"; }

# shellcheck disable=SC2016 # it stands so in the README
check a_trial "$(mkdir "$folder/trial" && cd "$folder/trial" && "$program" trial 7 2000 < /dev/null)" "$(session '(gaz=$PWD/gaz; cd "$(mktemp -d)" && $gaz trial 7 2000)')"
check scan_of_three_places "$("$program" scan 2 < "$top/examples/three_places.txt")" "$(session './gaz scan 2 < examples/three_places.txt')"

# In a copy, as there: the mirror that it leaves isn't to lie among the examples, nor to be found by the next run of this.
cp "$top"/examples/first_day/* "$folder" && cd "$folder" || exit 1
check the_first_day "$("$program" serve < requests.txt)" "$(session '$gaz serve < requests.txt')"
check the_next_run "$("$program" serve <<< 'get 104')" "$(session "\$gaz serve <<< 'get 104'")"
check a_search "$("$program" serve <<< 'search name_equals=ÉVERMORE')" "$(session "\$gaz serve <<< 'search name_equals=ÉVERMORE'")"
check a_search_in_german "$("$program" serve <<< $'search name_startsWith=neue\tsearchlang=de')" "$(session "\$gaz serve <<< \$'search name_startsWith=neue\\tsearchlang=de'")"
check a_search_in_any_language "$("$program" serve <<< 'search name_equals=GROSS-IMMERMEHR')" "$(session "\$gaz serve <<< 'search name_equals=GROSS-IMMERMEHR'")"
for request in 'hierarchy 105' 'children 91' 'admin XB.02'; do
    check "$request" "$("$program" serve <<< "$request")" "$(session "\$gaz serve <<< '$request'")"
done
check examples_stay_clean "$(cd "$top/examples" && find . -name 'mirror.*')" ''

finish

#!/usr/bin/env bash
# `./gaz` in all its cases: proved, unproved, unbuilt and stale; standard output and the status are the program's alone. A stand-in
# for `rt` tells what it was asked for, and makes the program or fails; where there is a real one, it runs one scan and one trial.
set -u
. "$(dirname "$0")/lib/expect.bash"

copy=$folder/copy
mkdir -p "$copy/crates/gaz_main/out" "$copy/crates/gaz_main/src" "$folder/none" "$folder/tools"
cp "$top/gaz" "$top/crates.txt" "$top/HANDLES" "$copy/"
while IFS= read -r name; do mkdir -p "$copy/crates/$name"; done < <(sed -n 's/^\([a-z_0-9]*\).*:.*/\1/p' "$copy/crates.txt")
for tool in bash env dirname readlink find touch awk mktemp rm cat head stat tail grep; do ln -s "$(command -v "$tool")" "$folder/none/$tool"; done
cp -P "$folder/none"/* "$folder/tools/"

# The stand-in: `rt lib` and `rt run` note the crate; `rt run` makes the program; `rt try` answers as the program would.
cat > "$folder/tools/rt" << END
#!$(command -v bash)
echo "\$(readlink -f .) \$*" >> "$folder/asked"
case \$1 in
    lib) [ ! -e "$folder/lib_fails" ] || { echo 'the messages of rt'; exit 1; } ;;
    run) cat < "$folder/program" > out/gaz_main; chmod +x out/gaz_main ;;
    try)
        shift 4
        [ ! -e "$folder/try_fails" ] || { echo 'run=none proved=no' >&2; exit 2; }
        [ ! -e "$folder/try_is_cut" ] || { printf '%s\n' 'checked: no-answer: the program wrote more than 1048576 bytes to standard output' 'run=no-answer proved=no' >&2; exit 2; }
        cd "\$(mktemp -d -p "$folder")" && "$program" "\$@"
        status=\$?
        echo "run=ended status=\$status runners=1 proved=no" >&2
        exit \$status ;;
esac
END
chmod +x "$folder/tools/rt"
ln -s "$(command -v chmod)" "$folder/tools/chmod"
cp "$program" "$folder/program"

# gaz PATH WORDS..: runs the copy's script with these tools alone, and tells what it printed and its status.
gaz() {
    local tools=$1
    shift
    PATH=$tools "$copy/gaz" "$@" 2> "$folder/why"
    echo "status $?"
}
says() { grep -c -- "$1" "$folder/why"; }
built() { cp "$program" "$copy/crates/gaz_main/out/gaz_main" && touch -d 'now + 2 minutes' "$copy/crates/gaz_main/out/gaz_main"; }
unbuilt() { rm -f "$copy/crates/gaz_main/out/gaz_main" "$folder/asked"; : > "$folder/asked"; }

# The proved program: nothing is said where it ends well, and a line with the cause where it doesn't.
built
cd "$folder" || exit 1
check a_current_program_runs "$(gaz "$folder/none" scan 5 < /dev/null)" $'ok 0\nstatus 0'
check and_nothing_is_said "$(cat why)" ''
check a_malformed_line "$(gaz "$folder/none" scan 5 <<< x)" $'refused malformed - 1 columns\nstatus 1'
check and_nothing_more_is_said "$(cat why)" ''
check no_such_command "$(gaz "$folder/none" open < /dev/null)" 'status 2'
got=$(PATH=$folder/none "$copy/gaz" scan 5 < /dev/null 2> why > /dev/full; echo "status $?")
check a_full_device "$got $(says '^gaz: standard output or one of the five files failed')" 'status 3 1'
got=$(PATH=$folder/none "$copy/gaz" scan 5 2> why < "$folder"; echo "status $?")
check a_folder_as_input "$got $(says '^gaz: standard input failed')" 'status 4 1'
mkdir bad && head -c 4096 /dev/zero > bad/mirror.root
check no_mirror "$(cd bad && gaz "$folder/none" serve <<< 'get 1') $(says 'are no mirror')" 'status 6 1'
check a_word_that_is_no_text "$(gaz "$folder/none" scan $'\xff' < /dev/null) $(says "isn't UTF-8")" 'status 8 1'
check the_program_itself_says_nothing "$("$program" scan 5 < "$folder" 2>&1; echo "status $?")" 'status 4'
mkdir held && cd held || exit 1
mkfifo in out
PATH=$folder/none "$copy/gaz" serve < in > out 2> ../why &
exec 3> in 4< out
printf 'get 1\n' >&3
read -r -t 10 -u 4 answer || answer=none
check both_ends_of_a_pipe "$answer" 'refused notloaded'
kill -TERM $!
wait $!
check a_signal_is_handed_on "$? $(flock -n mirror.mark echo free)" '143 free'
exec 3>&- 4<&-
cd ..

# No words, and a call for help: a usage, and status 2.
for words in '' help --help; do
    # shellcheck disable=SC2086 # no words are none
    check "usage of <$words>" "$(gaz "$folder/none" $words < /dev/null) $(says '^usage: gaz scan ID') $(($(wc -l < why) <= 16))" 'status 2 1 1'
done

# Nothing is built: a scan, a table and a trial are run unproved, and a line says so; serve is proved first, crate by crate, and so
# is a trial where there is a mirror, which it would have to look at.
unbuilt
check an_unproved_scan "$(gaz "$folder/tools" scan 5 < /dev/null)" $'ok 0\nstatus 0'
check it_says_so "$(says 'is run unproved')$(says 'gaz prove')" 11
check by_rt_try "$(sed 's/.*crates/crates/' asked)" 'crates/gaz_main try --seconds 600 -- scan 5'
check an_unproved_refusal "$(gaz "$folder/tools" scan 5 <<< x)" $'refused malformed - 1 columns\nstatus 1'
check unproved_words_that_are_none "$(gaz "$folder/tools" scan x < /dev/null)" 'status 2'
# (a line of the input is longer than rt try would hand on)
check an_input_that_is_too_long "$(gaz "$folder/tools" scan 5 < <(head -c 63000000 /dev/zero)) $(says 'longer than the 60 MiB')" 'status 9 1'
check an_unproved_table "$(gaz "$folder/tools" make 0 1 < /dev/null) $(says 'is run unproved')" "$("$program" make 0 1 < /dev/null)"$'\nstatus 0 1'
check it_takes_nothing_of_the_input "$({ PATH=$folder/tools "$copy/gaz" make 0 1 2> why > got; cat; } <<< untouched)" untouched
touch try_is_cut
check a_table_that_is_too_long "$(gaz "$folder/tools" make 0 1000000 < /dev/null) $(says 'longer than the 1 MiB')" 'status 9 1'
rm try_is_cut
check an_unproved_trial "$(mkdir -p place && cd place && gaz "$folder/tools" trial 0 2 < /dev/null) $(says 'is run unproved') $(says 'a folder of its own') $(ls -A place)" \
    $'ok load 2000-01-01\nok day 2000-01-02\n'"$("$program" make 0 2 < /dev/null)"$'\nok 2\nstatus 0 1 1 '
touch try_fails
check rt_try_fails "$(gaz "$folder/tools" scan 5 < /dev/null) $(says 'rt try in crates/gaz_main failed')" 'status 9 1'
rm try_fails
check without_the_kit "$(gaz "$folder/none" scan 5 < /dev/null) $(says 'there is no command rt')" 'status 9 1'
check serve_without_the_kit "$(gaz "$folder/none" serve < /dev/null) $(says 'there is no command rt')" 'status 9 1'
unbuilt
touch lib_fails
check a_proof_that_fails "$(mkdir -p place && cd place && gaz "$folder/tools" serve <<< 'get 1') $(says '^the messages of rt$') $(says 'rt lib in crates/gaz_.* failed') $(ls -A place)" 'status 9 1 1 '
rm lib_fails
unbuilt
check serve_proves_first "$(cd place && gaz "$folder/tools" serve <<< 'get 1')" $'refused notloaded\nstatus 0'
crates=$(sed 's/.*crates\///' asked)
check each_crate_once "$(printf '%s\n' "$crates" | sort | uniq -d)$(printf '%s\n' "$crates" | tail -n 1)" 'gaz_main run -- scan 1'
check lower_ones_first "$(printf '%s\n' "$crates" | grep -n -e '^gaz_outside lib' -e '^gaz_redo lib' -e '^gaz_serve lib' | sed 's/.*://' | tr '\n' ' ')" 'gaz_outside lib gaz_redo lib gaz_serve lib '
check a_line_for_each "$(grep -c -E '^gaz: [0-9]+ of [0-9]+: gaz_[a-z]+ \([0-9]+ min so far\)$' why)" "$(printf '%s\n' "$crates" | wc -l)"
check it_is_current_then "$(cd place && gaz "$folder/none" serve <<< 'get 1') $(cat why)" $'refused notloaded\nstatus 0 '
unbuilt
check a_trial_over_a_mirror_proves_first "$(cd place && gaz "$folder/tools" trial 0 2 < /dev/null | tail -n 1) $(grep -c ' run -- scan 1' asked)" 'status 0 1'
check and_again "$(cd place && gaz "$folder/none" trial 0 2 < /dev/null) $(cat why)" $'refused trial\nstatus 1 '
unbuilt
check prove_alone "$(gaz "$folder/tools" prove) $(says 'the proved program is')" 'status 0 1'

# A newer source makes the program stale, and no older one is run.
touch -d 'now + 4 minutes' "$copy/crates/gaz_main/src/main.rt"
check a_stale_program_is_not_run "$(gaz "$folder/none" scan 5 < /dev/null) $(says '^gaz: there is no')" 'status 9 1'

# The real rt try, in a copy of the sources with nothing built.
if command -v rt > /dev/null; then
    mkdir real && cp "$top/gaz" "$top/crates.txt" "$top/HANDLES" real/
    (cd "$top" && find crates -name out -prune -o -type f -print | tar -cf - -T -) | tar -xf - -C real
    got=$(real/gaz scan 2 < "$top/examples/three_places.txt" 2> why; echo "status $?")
    check a_real_unproved_scan "$got" "$("$program" scan 2 < "$top/examples/three_places.txt")"$'\nstatus 0'
    mkdir a_trial of_the_program
    got=$(cd a_trial && ../real/gaz trial 7 2000 2> ../why < /dev/null; echo "status $?")
    check a_real_unproved_trial "$got $(ls -A a_trial)" "$(cd of_the_program && "$program" trial 7 2000 < /dev/null)"$'\nstatus 0 '
fi

finish

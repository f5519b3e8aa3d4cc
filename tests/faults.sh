#!/usr/bin/env bash
# Input that can't be read, output that can't be written and a mirror that can't be stored: each has its status.
set -u
. "$(dirname "$0")/lib/expect.bash"

expect a_folder_as_input 4 '' scan 1 < "$folder"
"$program" scan 1 <&- > "$folder/out"
check closed_input "$? $(cat "$folder/out")" '4 '

"$program" scan 1 < /dev/null > /dev/full
check a_full_device "$?" 3
"$program" scan 1 < /dev/null >&-
check closed_output "$?" 3
mkfifo "$folder/pipe"
: < "$folder/pipe" &
exec 3> "$folder/pipe"
wait
"$program" scan 1 < /dev/null >&3
check a_closed_pipe "$?" 3
exec 3>&-

# Calls that the system fails or interrupts once, by strace where it may be used.
if strace -o "$folder/trace" true 2> /dev/null; then
    cd "$folder" || exit 1
    { row 1 A 1; echo; } > allCountries.txt
    printf '10\t1\tde\tErste\n' > alternateNamesV2.txt
    printf '1\t2\tADM\n' > hierarchy.txt
    printf '# a comment\nAA\t\t\t\t\t\t\t\t\t\t\t\t\t\t\t\t1\n' > countryInfo.txt
    printf 'AA.01\tOne\tOne\t2\n' > admin1CodesASCII.txt
    printf 'AA.01.001\tTwo\tTwo\t3\n' > admin2Codes.txt
    printf 'load 2024-03-01\nload 2024-03-01\n' > requests
    loaded=$'ok load 2024-03-01\n'
    # serve_with FILE FAULT: two loads into an empty mirror, where a call on the file meets the fault.
    serve_with() {
        remove_mirror
        strace -qq -o trace -P "$1" -e "inject=$2" "$program" serve < requests 2> trace.err
        echo "status $?"
    }
    for file in "${load_files[@]}"; do
        for fault in openat:error=EACCES:when=1 statx:error=EIO:when=1 pread64:error=EIO:when=1 pread64:error=EIO:when=2; do
            check "${file}_with_$fault" "$(serve_with $file "$fault")" "refused shelf $file"$'\n'"${loaded}status 0"
        done
        check "an_interrupted_read_of_$file" "$(serve_with $file pread64:error=EINTR:when=1..3)" "$loaded${loaded}status 0"
    done
    # The four files of a day, of which each fails once: the day is refused, and the same day is accepted then.
    mkdir loaded
    remove_mirror
    "$program" serve <<< 'load 2024-03-01' > trace.out
    cp "${mirror[@]}" loaded
    { row 1 A 2; echo; } > modifications-2024-03-02.txt
    echo 7 > deletes-2024-03-02.txt
    printf '11\t1\ten\tOne\n' > alternateNamesModifications-2024-03-02.txt
    echo 10 > alternateNamesDeletes-2024-03-02.txt
    printf 'day 2024-03-02\nday 2024-03-02\n' > days
    for file in modifications-2024-03-02.txt deletes-2024-03-02.txt alternateNamesModifications-2024-03-02.txt alternateNamesDeletes-2024-03-02.txt; do
        for fault in openat:error=EACCES:when=1 statx:error=EIO:when=1 pread64:error=EIO:when=1 pread64:error=EIO:when=2; do
            cp loaded/* .
            strace -qq -o trace -P $file -e "inject=$fault" "$program" serve < days > trace.out 2> trace.err
            check "${file}_with_$fault" "$? $(cat trace.out)" "0 refused shelf $file"$'\nok day 2024-03-02'
        done
    done

    check an_interrupted_read "$(serve_with requests read:error=EINTR:when=1..3)" "$loaded${loaded}status 0"
    check a_read_that_fails "$(serve_with requests read:error=EIO:when=1)" 'status 4'
    check a_read_that_fails_at_the_end "$(serve_with requests read:error=EIO:when=2)" "$loaded${loaded}status 4"

    # A scan: its input fails behind a line without an LF, and its output behind the row that it found.
    printf x > requests
    strace -qq -o trace -P requests -e inject=read:error=EIO:when=2 "$program" scan 5 < requests > trace.out 2> trace.err
    check a_scan_whose_input_fails_behind_a_line "$? $(cat trace.out)" '4 '
    { row 2 B 2; echo; } > requests
    strace -qq -o trace -e trace=write -e inject=write:error=EIO:when=2 "$program" scan 2 < requests > trace.out 2> trace.err
    check a_scan_whose_second_piece_fails "$? $(cat trace.out)" "3 $(row 2 B 2)"
    : > requests
    strace -qq -o trace -P requests -e inject=read:error=EIO:when=2 "$program" scan 5 < requests > trace.out 2> trace.err
    check an_end_is_not_asked_again "$? $(cat trace.out)" '0 ok 0'

    # Calls on the five files and the folder, of which each fails in turn while a load is stored over another one: the run ends
    # with status 3 and prints nothing, and the next one answers from before the load or from after it.
    mkdir saved
    remove_mirror
    "$program" serve <<< 'load 2024-03-01' > trace.out
    cp "${mirror[@]}" saved
    { row 1 B 2; echo; } > allCountries.txt
    echo 'load 2024-03-02' > requests
    # serve_over CALL FAULT: the second load, where a call on them meets the fault.
    serve_over() {
        cp saved/* .
        strace -qq -o trace -P mirror.mark -P mirror.log -P mirror.root -P mirror.left -P mirror.right -P . -e "trace=$1" -e "inject=$1:$2" "$program" serve < requests 2> trace.err
        echo "status $?"
    }
    answers() { "$program" serve <<< $'get 1\nday 2000-01-01'; echo "status $?"; }
    before="$(row 1 A 1)"$'\nok 1\nrefused sequence 2024-03-01\nstatus 0'
    after="$(row 1 B 2)"$'\nok 1\nrefused sequence 2024-03-02\nstatus 0'
    for call in openat flock statx pread64 pwrite64 fdatasync fsync; do
        failed_before=0
        failed_after=0
        wanted=$before
        for number in $(seq 100); do
            got=$(serve_over "$call" "error=EIO:when=$number")
            grep -q INJECTED trace || break
            check "failed_${call}_$number" "$got" 'status 3'
            got=$(answers)
            # Once a failure at a call leaves the load stored, one at a later call does too.
            [ "$got" = "$after" ] && wanted=$after
            check "answers_behind_failed_${call}_$number" "$got" "$wanted"
            if [ "$wanted" = "$after" ]; then failed_after=$((failed_after + 1)); else failed_before=$((failed_before + 1)); fi
        done
        check "no_failed_$call" "$got" $'ok load 2024-03-02\nstatus 0'
        check "some_failed_$call" "$((failed_before + failed_after > 0))" 1
        echo "$call failed at each of its calls: $failed_before answers from before the load, $failed_after from after it"
    done

    # Where the page can't be written once the gate is open, the next run lays the log over it.
    gate() { od -An -tu1 mirror.mark; }
    cp saved/* .
    strace -qq -o trace -P mirror.root -e trace=pwrite64 -e inject=pwrite64:error=EIO "$program" serve < requests 2> trace.err
    check a_page_that_fails "$?$(gate)" '3   1'
    check the_old_page "$(cmp mirror.root saved/mirror.root && echo same)" same
    check answers_from_the_log "$(answers)" "$after"
    check a_closed_gate "$(gate)" '   0'
    for call in pread64 pwrite64 fdatasync; do
        check "an_interrupted_$call" "$(serve_over "$call" error=EINTR:when=1..3)" $'ok load 2024-03-02\nstatus 0'
        check "answers_behind_an_interrupted_$call" "$(answers)" "$after"
    done
fi

finish

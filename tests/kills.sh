#!/usr/bin/env bash
# tests/kills.sh [SEED]: 200 runs that apply a day are killed at random moments, spread over the time that such a run takes here.
# After each one a run of gets answers from before the day or from after it, never between, and from after it where the killed
# run had told that the day was applied. Before every second of these another run is killed while it opens the mirror.
set -u
. "$(dirname "$0")/lib/expect.bash"

kills=200
rows=20000
seed=${1:-$RANDOM}
RANDOM=$seed

mkdir "$folder/place" && cd "$folder/place" || exit 1

# Each day changes every 20th row, deletes the row behind the one whose id is 20 times its number, and adds a place.
awk -v rows=$rows 'BEGIN { for (id = 1; id <= rows; id++)
    printf "%d\tday 0\tMade place %d\t\t%.5f\t%.5f\tP\tPPL\tAA\t\t%02d\t%03d\t\t\t%d\t\t%d\tEurope/Paris\t2024-02-01\n", id, id, id % 180 - 89.5, id % 360 - 179.75, id % 100, id % 1000, id * 7 % 100000, id % 3000 }' > allCountries.txt
mapfile -t dates < <(seq 0 $((kills + 1)) | sed 's/.*/2024-03-01 + & days/' | date -f - +%F)

# files_of_day NUMBER: makes the files of the day.
files_of_day() {
    local added=$((rows + $1))
    awk -F '\t' -v OFS='\t' -v day="$1" 'NR % 20 == 0 { $2 = "day " day; print }' allCountries.txt > "modifications-${dates[$1]}.txt"
    row $added "day $1" 1 >> "modifications-${dates[$1]}.txt"
    echo >> "modifications-${dates[$1]}.txt"
    printf '%d\tday 0\tgone\n' $((20 * $1 + 1)) > "deletes-${dates[$1]}.txt"
    empty_others
}

# answers_after APPLIED NUMBER: what is to be answered to the requests of the day with this number after so many days.
answers_after() {
    awk -F '\t' -v OFS='\t' -v applied="$1" -v changed="20 $((rows / 2)) $rows" -v deleted=$((20 * $2 + 1)) \
        -v added="$(row $((rows + $2)) "day $2" 1)" -v there=$(($1 >= $2)) -v date="${dates[$1]}" '
        BEGIN { split(changed, ids, " ") }
        $1 in want { lines[$1] = $0 }
        END {
            for (n = 1; n <= 3; n++) { $0 = lines[ids[n]]; $2 = "day " applied; print; print "ok 1" }
            if (there) print "ok 0"; else { print lines[deleted]; print "ok 1" }
            if (there) { print added; print "ok 1" } else print "ok 0"
            print "refused sequence " date
            print "status 0"
        }
        BEGIN { for (n in ids) want[ids[n]]; want[deleted] }' allCountries.txt
}

# requests_of NUMBER: the gets of the day, and a day that is refused with the date that the mirror has.
requests_of() { printf 'get %d\n' 20 $((rows / 2)) $rows $((20 * $1 + 1)) $((rows + $1)); echo 'day 2000-01-01'; }

# begin_day NUMBER: the requests that are sent and what may be answered behind them. The day is followed by many gets, so that
# kills land behind its acknowledgement too.
begin_day() {
    files_of_day "$1"
    { echo "day ${dates[$1]}"; yes 'get 20' | head -n 5000; } > ../day
    requests_of "$1" > ../gets
    before=$(answers_after $(($1 - 1)) "$1")
    after=$(answers_after "$1" "$1")
}

# killed_within MICROSECONDS REQUESTS: kills a run at a random moment, and tells its status. A wait with a timeout on a pipe
# that nobody writes to is a sleep that starts no process.
mkfifo ../nothing
exec 9<> ../nothing
killed_within() {
    local moment=$(((RANDOM * 32768 + RANDOM) % $1)) seconds
    printf -v seconds '%d.%06d' $((moment / 1000000)) $((moment % 1000000))
    : > ../reply
    "$program" serve < "$2" > ../reply &
    read -r -t "$seconds" -u 9
    { kill -9 $!; wait $!; } 2> ../killed
    status=$?
}

empty_others
expect a_load 0 $'ok load 2024-03-01\n' serve <<< 'load 2024-03-01'
begin_day 1

# The time of a run that isn't killed, in microseconds: the middle one of five, each from the same mirror.
mkdir ../saved && cp "${mirror[@]}" ../saved
times=()
for _ in 1 2 3 4 5; do
    cp ../saved/* .
    start=${EPOCHREALTIME/[.,]/}
    "$program" serve < ../day > ../reply &
    wait $!
    times+=($((${EPOCHREALTIME/[.,]/} - start)))
    check an_unkilled_run "$(head -n 1 ../reply)" "ok day ${dates[1]}"
done
cp ../saved/* .
took=$(printf '%s\n' "${times[@]}" | sort -n | sed -n 3p)

unacknowledged=0
acknowledged=0
ended=0
open_gates=0
applied_unacknowledged=0
day=1
for kill in $(seq $kills); do
    killed_within $((took + took / 8)) ../day
    is_acknowledged=no
    read -r reply < ../reply && [ "$reply" = "ok day ${dates[day]}" ] && is_acknowledged=yes
    case $status,$is_acknowledged in
        137,no) unacknowledged=$((unacknowledged + 1)) ;;
        137,yes) acknowledged=$((acknowledged + 1)) ;;
        *)
            ended=$((ended + 1))
            check a_run_that_ended "$status,$is_acknowledged" 0,yes
            ;;
    esac
    gate=
    read -r -N 1 gate < mirror.mark
    [ "$gate" = $'\1' ] && open_gates=$((open_gates + 1))
    [ $((kill % 2)) = 0 ] && killed_within $((took / 4)) /dev/null

    got=$("$program" serve < ../gets; echo "status $?")
    if [ "$got" = "$before" ]; then
        check "before_day_$day" $is_acknowledged no
    else
        check "after_day_$day" "$got" "$after"
        [ "$got" = "$after" ] || break
        [ $is_acknowledged = yes ] || applied_unacknowledged=$((applied_unacknowledged + 1))
        day=$((day + 1))
        begin_day $day
    fi
done

echo "seed $seed, $took microseconds a run: $unacknowledged kills before the acknowledgement, $acknowledged after it, $ended behind the end of the run;" \
    "$open_gates left the gate open; $applied_unacknowledged days were found applied though not acknowledged, $((day - 1)) in all"
check some_kill_before_the_acknowledgement $((unacknowledged > 0)) 1
check some_kill_inside_a_run $((unacknowledged + acknowledged > 0)) 1
check only_the_mirror_was_made "$(made_files)" "$(printf '%s\n' "${mirror[@]}")"

finish

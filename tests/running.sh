#!/usr/bin/env bash
# Each command of docs/RUNNING.md, with an installed copy, folders of its own and the small environment of cron: the load, the daily
# files and jobs, backup and restore, and what is watched. Then tools/gaz_backup in its other cases, a full disk, and equal mirrors.
set -u
. "$(dirname "$0")/lib/expect.bash"
unset GAZ
page=$top/docs/RUNNING.md
place=$folder/opt data=$folder/data backup=$folder/backup
mkdir -p "$folder/checkout/crates/gaz_main/out" "$data/incoming" "$backup"
cp -r "$top/gaz" "$top/crates.txt" "$top/HANDLES" "$top/tools" "$folder/checkout"
cp "$program" "$folder/checkout/crates/gaz_main/out/gaz_main" && touch -d 'now + 2 minutes' "$folder/checkout/crates/gaz_main/out/gaz_main"
"$folder/checkout/gaz" install "$place" 2> /dev/null || exit 1
cd "$folder" || exit 1

here() { sed "s#/opt/gaz#$place#g; s#/data/geonames#$data#g; s#/backup#$backup#g"; }

# small COMMAND [LIMIT]: what `sh -c` prints of it in the environment that cron gives, with its status; no file may pass LIMIT KiB.
small() {
    (
        if [ -n "${2-}" ]; then
            trap '' XFSZ
            ulimit -f "$2"
        fi
        env -i HOME="$folder" LOGNAME=geonames SHELL=/bin/sh PATH=/usr/bin:/bin /bin/sh -c "$1" 2>&1
        echo "status $?"
    )
}

# Of the page, a command begins with a small letter or a slash, the line of cron with a digit, and the rest is the two units.
mapfile -t commands < <(sed -n 's/^ \{4,6\}\([a-z/].*\)/\1/p' "$page" | here)
cron=$(sed -n 's/^    \([0-9].*\)/\1/p' "$page" | here)
unit() { awk -v name="$1" 'inside && /^[^ ]/ { exit } inside { print substr($0, 5) } index($0, name "`:") { inside = 1 }' "$page" | here; }

check the_commands "$(printf '%s\n' "${commands[@]}" | sed 's#[^ ]*/##g' | awk '{ print NR, $1, $NF }' | tr '\n' ';')" \
    '1 cd serve;2 mv data;3 systemctl gaz-daily.timer;4 gaz_backup 2024-03-02;5 cd serve;6 cd .'"'"';7 cd serve;8 df data;'
run() { small "${commands[$1 - 1]}"; }

# The load, and the day's files, which come into a folder beside.
for file in "${load_files[@]}"; do cp "$top/examples/first_day/$file" "$data"; done
cp "$top"/examples/first_day/*-2024-03-02.txt "$data/incoming"
check the_load "$(run 1)" $'ok load 2024-03-01\nstatus 0'
check one_line_of_cron "$(grep -c -E '^([0-9*]+ ){5}[^%]+$' <<< "$cron") $(wc -l <<< "$cron")" '1 1'
job=$(cut -d ' ' -f 6- <<< "$cron")
check nothing_is_due "$(small "$job")" 'status 0'
check the_files_move "$(run 2; ls "$data/incoming"; cd "$data" && echo *-2024-03-02.txt)" \
    $'status 0\nalternateNamesDeletes-2024-03-02.txt alternateNamesModifications-2024-03-02.txt deletes-2024-03-02.txt modifications-2024-03-02.txt'
check the_job_of_cron "$(small "$job")" $'ok day 2024-03-02\nstatus 0'
check and_again "$(small "$job")" 'status 0'

# The units of systemd.
mkdir -p root/etc/systemd/system
for kind in service timer; do unit "gaz-daily.$kind" > "root/etc/systemd/system/gaz-daily.$kind"; done
check the_unit_runs "$(small "$(sed -n 's/^ExecStart=//p' root/etc/systemd/system/gaz-daily.service)")" 'status 0'
check the_units_are_whole "$(cd root/etc/systemd/system && grep -h '^\[' gaz-daily.service gaz-daily.timer | tr -d '\n')" '[Unit][Service][Unit][Timer][Install]'
if [ "$(command -v systemd-analyze)" ] && systemd-analyze --version > /dev/null 2>&1; then
    check the_units_are_good "$(cd root/etc/systemd/system && timeout 60 systemd-analyze verify ./gaz-daily.service ./gaz-daily.timer 2>&1; echo "status $?")" 'status 0'
    # shellcheck disable=SC2046 # the words of the command
    check they_are_enabled "$(systemctl --root="$folder/root" $(sed 's/systemctl//; s/ --now//' <<< "${commands[2]}") 2> /dev/null; ls root/etc/systemd/system/timers.target.wants)" gaz-daily.timer
else
    echo "skipped: the units of systemd, since there is no systemd-analyze"
fi

# The backup, and what it holds.
check the_backup "$(run 4; cd "$backup" && ls; ls 2024-03-02 | tr '\n' ' ')" $'status 0\n2024-03-02\n'"${mirror[*]} "
for file in "${mirror[@]}"; do check "$file of the backup" "$(cmp "$data/$file" "$backup/2024-03-02/$file" && echo same)" same; done
check the_copy_answers "$(run 5)" $'refused sequence 2024-03-02\nstatus 0'
check the_copy_is_there "$(run 4)" "gaz_backup: $backup/2024-03-02 is there already"$'\nstatus 2'
check the_date "$(run 7)" $'refused sequence 2024-03-02\nstatus 0'
check the_room "$(run 8 | grep -c -E '^ *[0-9]+$|^ *Avail$|^status 0$')" 3

# A damaged mirror, restored behind a further day.
(cd "$data" && { row 110 Newest 7; echo; } > modifications-2024-03-03.txt && : > deletes-2024-03-03.txt && empty_others)
check a_further_day "$(small "$job")" $'ok day 2024-03-03\nstatus 0'
requests=$(for id in 80 90 91 101 102 103 104 105 106 110; do printf 'get %s\nhierarchy %s\nchildren %s\n' $id $id $id; done
    printf 'search\nsearch name_startsWith=n\nsearch name_equals=neue furt\nadmin XB.02\n')
ask() { (cd "$1" && "$place/bin/gaz_main" serve <<< "$requests"); }
before=$(ask "$data")
head -c 4096 /dev/zero > "$data/mirror.root"
check it_is_damaged "$(run 7 | tail -n 1)" 'status 6'
check the_restore "$(run 6; ls "$data/aside" | tr '\n' ' ')" $'status 0\n'"${mirror[*]} "
check it_has_the_date_of_the_backup "$(run 7)" $'refused sequence 2024-03-02\nstatus 0'
check the_day_after_it_comes "$(small "$job")" $'ok day 2024-03-03\nstatus 0'
check all_is_as_before "$(ask "$data")" "$before"
check it_answers "$(tail -n 1 <<< "$before") $(grep -c '^110' <<< "$before")" 'ok 1 4'
rm "$data"/*-2024-03-0?.txt
check without_the_days_files "$(ask "$data")" "$before"

# gaz_backup where it can't, and with the locks of the two others.
tool=$place/bin/gaz_backup
check no_words "$(small "$tool" | grep -c -e '^gaz_backup \[--wait\] FOLDER COPY' -e 'status 2')" 2
mkdir none
check no_mirror "$(small "$tool none copy")" $'gaz_backup: there is no none/mirror.mark, so this is no mirror\nstatus 2'
check no_folder_for_it "$(small "$tool data gone/copy" | tail -n 1)" 'status 3'
check a_full_disk "$(small "$tool data copy" 1 | grep -c -e "couldn't be copied$" -e '^status 3$'; [ -e copy ] || echo none)" $'2\nnone'
check and_then_with_room "$(small "$tool data copy"; ls -d copy*)" $'status 0\ncopy'
mkdir other.part && touch other.part/mine
check a_folder_of_someone_else "$(small "$tool data other 2> /dev/null" | tail -n 1; ls other.part)" $'status 3\nmine'
(flock 9; touch locked; until [ -e go ]; do sleep 0.02; done) 9< data/mirror.mark &
until [ -e locked ]; do sleep 0.02; done
check a_run_is_under_way "$(small "$tool data second")" $'gaz_backup: a run, a gaz_daily or another gaz_backup has this mirror\nstatus 75'
small "$tool --wait data second" > waited &
sleep 0.3
check it_waits "$(cat waited; ls -d second* 2> /dev/null)" ''
touch go
wait
check and_goes_on "$(cat waited; ls -d second*)" $'status 0\nsecond'
rm go

# While it copies: a stand-in for cp waits at the third file. Then it is killed there.
mkdir slow && cat > slow/cp << 'CP'
#!/bin/sh
case $2 in *mirror.root) touch reached; until [ -e go ]; do sleep 0.02; done ;; esac
exec /usr/bin/cp "$@"
CP
chmod +x slow/cp
PATH=$folder/slow:$PATH "$tool" data third &
until [ -e reached ]; do sleep 0.02; done
check the_program_meanwhile "$(small "cd data && echo 'get 1' | $place/bin/gaz serve" | tail -n 1)" 'status 3'
check the_job_meanwhile "$(small "$place/bin/gaz_daily data")" $'gaz_daily: another gaz_daily or a gaz_backup works in this folder\nstatus 75'
touch go
wait $!
check it_ends "$? $(ls -d third*)" '0 third'
rm go reached
PATH=$folder/slow:$PATH "$tool" data fourth 2> /dev/null &
until [ -e reached ]; do sleep 0.02; done
{ kill -KILL $!; wait $!; } 2> /dev/null
touch go
check killed_it_leaves_no_copy "$(ls -d fourth*)" fourth.part
check the_next_one_is_whole "$(small "$tool --wait data fourth"; ls -d fourth*; ask fourth | cmp - <(echo "$before") && echo same)" $'status 0\nfourth\nsame'

# A run that has the mirror, and copies behind runs that were killed: each copy has the date that the mirror has.
mkfifo in out
(cd data && exec "$place/bin/gaz_main" serve < ../in > ../out) &
exec 3> in 4< out
echo 'get 1' >&3
read -r -t 10 -u 4 answer || answer=none
check a_real_run "$answer $(small "$tool data fifth" | tail -n 1)" 'ok 0 status 75'
exec 3>&- 4<&-
wait
mkdir killed && cp -p data/mirror.* killed
cp "$top"/examples/first_day/*-2024-03-02.txt killed
(cd killed && for file in "${load_files[@]}"; do cp "$top/examples/first_day/$file" .; done)
for n in 04 06 07 08 09 10 12 16; do
    { (cd killed && timeout -s KILL "0.0$n" "$place/bin/gaz_main" serve <<< $'load 2024-03-01\nday 2024-03-02\nload 2024-02-01'); } > /dev/null 2>&1
    small "$tool --wait killed copy_$n" > said
    date=$(cd "copy_$n" && "$place/bin/gaz_main" serve <<< 'day 0000-01-01')
    check "behind kill $n" "$(cat said) $date $(ask "copy_$n" | cksum)" "status 0 $(cd killed && "$place/bin/gaz_main" serve <<< 'day 0000-01-01') $(ask killed | cksum)"
    echo "$date" >> dates
done
check all_are_mirrors "$(grep -c '^refused sequence 2024-0[23]-0[123]$' dates)" 8

# A disk that is full while a day is applied: the old mirror or the new one, and the next job ends it.
(cd data && { row 111 Late 8; echo; } > modifications-2024-03-04.txt && : > deletes-2024-03-04.txt && empty_others)
check a_day_without_room "$(small "$job" 1 | tail -n 1)" 'status 3'
check as_before_or_after "$(run 7 | grep -c -E '^refused sequence 2024-03-0[34]$')" 1
small "$job" > /dev/null
check the_day_is_there "$(run 7; cd data && "$place/bin/gaz_main" serve <<< 'get 111')" $'refused sequence 2024-03-04\nstatus 0\n'"$(row 111 Late 8)"$'\nok 1'

# Other machines: one begins with the dump, one with a backup; with the same days they have the same replies.
mkdir loaded && cp "$top"/examples/first_day/* loaded && cp "$data"/*-2024-03-04.txt loaded
(cd loaded && { row 110 Newest 7; echo; } > modifications-2024-03-03.txt && : > deletes-2024-03-03.txt && empty_others)
cp loaded/*-2024-03-0[34].txt "$backup/2024-03-02"
(cd loaded && "$place/bin/gaz_main" serve <<< 'load 2024-03-01' > /dev/null)
check its_days "$(small "$place/bin/gaz_daily loaded" | tail -n 2)" $'ok day 2024-03-04\nstatus 0'
check those_of_the_copy "$(small "$place/bin/gaz_daily $backup/2024-03-02")" $'ok day 2024-03-03\nok day 2024-03-04\nstatus 0'
check equal_replies "$(for one in loaded "$backup/2024-03-02"; do ask "$one" | cmp - <(ask data) && echo same; done)" $'same\nsame'

finish

#!/usr/bin/env bash
# `./gaz install` in a copy of the checkout, then the installed program and tools, with a small environment and the checkout gone.
set -u
. "$(dirname "$0")/lib/expect.bash"
unset GAZ
checkout=$folder/checkout
place="$folder/a place"
mkdir -p "$checkout/crates/gaz_main/out"
cp "$top/gaz" "$top/crates.txt" "$top/HANDLES" "$checkout" && cp -r "$top/tools" "$checkout/tools"
cp "$program" "$checkout/crates/gaz_main/out/gaz_main" && touch -d 'now + 2 minutes' "$checkout/crates/gaz_main/out/gaz_main"
cd "$folder" || exit 1

# small WORDS..: what this prints in an environment like that of cron, with what it says, and its status.
small() { env -i HOME="$folder" PATH=/usr/bin:/bin "$@" 2>&1; echo "status $?"; }

check no_folder_is_named "$("$checkout/gaz" install 2>&1 | head -n 1; "$checkout/gaz" install '' 2>&1 | head -n 1)" \
    "$(for _ in 1 2; do "$checkout/gaz" help 2>&1 | head -n 1; done)"
check it_is_installed "$(small "$checkout/gaz" install "$place")" "gaz: the proved program and the tools are in $place/bin"$'\nstatus 0'
check by_a_relative_name "$(small "$checkout/gaz" install 'a place/../b')" "gaz: the proved program and the tools are in $folder/b/bin"$'\nstatus 0'
tools=$(cd "$top/tools" && printf '%s\n' gaz gaz_main * | sort)
check what_is_there "$(cd "$place/bin" && find . -type f -executable -printf '%P\n' | sort)" "$tools"
check and_nothing_else "$(cd "$place/bin" && ls -A)" "$(cd "$place/bin" && ls)"
check the_program_is_the_proved_one "$(cmp "$place/bin/gaz_main" "$program" && echo same)" same
touch a_file
check no_folder_can_be_made "$(small "$checkout/gaz" install a_file | tail -n 2)" "gaz: there is no folder a_file/bin, and it can't be made"$'\nstatus 9'

# Installed once more while a run has the mirror: that run goes on.
mkdir held && mkfifo in out
(cd held && exec "$place/bin/gaz" serve < ../in > ../out) &
exec 3> in 4< out
echo 'get 1' >&3
read -r -t 10 -u 4 answer || answer=none
check a_run "$answer" 'refused notloaded'
check it_is_installed_again "$(small "$checkout/gaz" install "$place" | tail -n 1)" 'status 0'
echo 'get 0' >&3
read -r -t 10 -u 4 answer || answer=none
check that_run_goes_on "$answer" 'refused request id'
exec 3>&- 4<&-
wait

# A stale program isn't installed where it can't be proved.
touch -d 'now + 4 minutes' "$checkout/crates.txt"
mkdir none && for tool in bash env dirname readlink find; do ln -s "$(command -v "$tool")" none; done
check a_stale_program_is_not_installed "$(PATH=$folder/none "$checkout/gaz" install "$folder/c" 2>&1; echo "status $?"; [ -e c ] || echo none)" \
    $'gaz: there is no command rt on the PATH; it comes with the kit of Rattle\nstatus 9\nnone'

# Without the checkout.
rm -rf "$checkout"
mkdir first_day && cp "$top"/examples/first_day/* first_day && cd first_day || exit 1
check a_load "$(small "$place/bin/gaz" serve <<< 'load 2024-03-01')" $'ok load 2024-03-01\nstatus 0'
check the_daily_job "$(small "$place/bin/gaz_daily" .)" $'ok day 2024-03-02\nstatus 0'
check nothing_due "$(small "$place/bin/gaz_daily" .)" 'status 0'
ln -s "$place/bin/gaz_daily" ../a_link
check by_a_link "$(small ../a_link .)" 'status 0'
check a_scan "$(small "$place/bin/gaz" scan 5 <<< x)" $'refused malformed - 1 columns\nstatus 1'
check a_trial_over_a_mirror "$(small "$place/bin/gaz" trial 0 2)" $'refused trial\nstatus 1'
check an_explained_status "$(cd .. && mkdir bad && head -c 4096 /dev/zero > bad/mirror.root && cd bad && small "$place/bin/gaz" serve <<< 'get 1')" \
    $'gaz: the five files here are no mirror: restore all five from a copy, or remove them and load again\nstatus 6'
check it_proves_nothing "$(small "$place/bin/gaz" prove)" "gaz: the proved program is $place/bin/gaz_main"$'\nstatus 0'
check nor_installs "$(small "$place/bin/gaz" install ../d; [ -e ../d ] || echo none)" \
    $'gaz: this is an installed copy; install from the checkout\nstatus 9\nnone'
check a_usage "$(small "$place/bin/gaz" | grep -c -e '^usage: gaz scan ID' -e examples/ -e 'status 2')" 2

finish

#!/usr/bin/env bash
# The files of the device: their names, the lock between two programs, and a standard output that was closed.
# It runs gaz_areas, which writes its word to the mark and keeps it locked until its input ends.
set -u
. "$(dirname "$0")/lib/expect.bash"
areas=$top/crates/gaz_areas/out/gaz_areas
[ -x "$areas" ] || { echo "the program isn't built: $areas"; exit 1; }
cd "$folder" || exit 1

check first_use "$("$areas" kept < /dev/null; echo " $?")" 'kept 0'
check the_file "$(ls) $(cat mirror.mark)" 'mirror.mark kept'

mkfifo input
"$areas" held < input > held &
exec 3> input
tries=0
until [ "$(cat mirror.mark)" = held ] || [ "$tries" = 200 ]; do
    sleep 0.05
    tries=$((tries + 1))
done
check locked "$("$areas" late < /dev/null; echo " $?")" ' 3'
check locked_for_others "$(flock -n mirror.mark true; echo "$?")" 1
exec 3>&-
wait
check the_holder_goes_on "$(cat held mirror.mark)" heldheld
check free_again "$("$areas" next < /dev/null; echo " $?")" 'next 0'
check locked_by_another "$(flock mirror.mark "$areas" late < /dev/null; echo " $?")" ' 3'

"$areas" shut < /dev/null >&-
check closed_output "$? $(cat mirror.mark)" '3 shut'
"$areas" bare <&- >&- 2>&-
check all_closed "$? $(cat mirror.mark)" '4 bare'
# The first sync of an area syncs the folder behind it, so that the file's name outlives a power cut.
if strace -o trace true 2> /dev/null; then
    strace -o trace -e trace=openat,fdatasync,fsync "$areas" synced < /dev/null > /dev/null
    check folder_is_synced "$(sed -n '/mirror.mark/,$p' trace | sed -n 's/^\(fdatasync\|fsync\)(.*= 0$/\1/p; s/^openat(.*"\.".*/folder/p' | tr '\n' ' ')" 'fdatasync folder fsync '
    check standard_descriptors_are_held "$(grep -c 'openat(AT_FDCWD, "/",' trace)" 3
    # A call that fails is answered as a failure.
    for call in flock pwrite64 fdatasync fsync; do
        strace -o trace -e "inject=$call:error=EIO" "$areas" broken < /dev/null > /dev/null
        check "failed_$call" "$?" 3
    done
fi

rm mirror.mark
mkdir mirror.mark
check a_folder_as_area "$("$areas" none < /dev/null; echo " $?")" ' 3'

finish

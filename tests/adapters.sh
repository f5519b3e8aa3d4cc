#!/usr/bin/env bash
# What no clause can say, since real files, pipes and descriptors tell no bytes: that the adapters over them, and `main`, do what
# the objects in memory do. Each check was seen to fail with the bug in that it is named for.
set -u
. "$(dirname "$0")/lib/expect.bash"
cd "$folder" || exit 1

# A standard output that is closed never lets an area take its place: the acknowledgement would be written into the mirror.
mkdir closed && cd closed || exit 1
{ row 1 A 1; echo; } > allCountries.txt
empty_others
"$program" serve <<< 'load 2024-03-01' >&-
check output_closed "$?" 3
check no_reply_in_the_mirror "$(cat mirror.* | grep -c 'ok load')" 0
expect the_load_was_stored 0 "$(row 1 A 1)"$'\nok 1\n' serve <<< 'get 1'
cd ..

# Each of the five files is made, synced, and its name with it by a sync of the folder.
if strace -o trace true 2> /dev/null; then
    mkdir named && cd named || exit 1
    strace -o ../trace -e trace=openat,fdatasync,fsync "$program" serve < /dev/null
    check each_name_is_synced "$(sed -n -E 's/^openat\(.*"mirror\.([a-z]*)".*/\1/p; s/^openat\(.*"\.".*/folder/p; s/^(fdatasync|fsync)\(.*= 0$/\1/p' ../trace | tr '\n' ' ')" \
        "$(printf '%s fdatasync folder fsync ' mark log root left right)"
    cd ..
fi

# Within one run a file that was absent may come, and one that is there may be replaced or go.
mkdir changing && cd changing || exit 1
mkfifo in out
timeout 60 "$program" serve < in > out &
exec 3> in 4< out
# ask REQUEST LINES: sends it, and reads so many lines.
ask() {
    local line count
    printf '%s\n' "$1" >&3
    asked=
    for ((count = 0; count < $2; count++)); do
        read -r -t 10 -u 4 line || line=none
        asked+="$line;"
    done
}
ask 'load 2024-03-01' 1
check absent "$asked" 'refused absent allCountries.txt;'
{ row 1 A 1; echo; } > allCountries.txt
for file in "${load_files[@]:1}"; do
    ask 'load 2024-03-01' 1
    check "no_$file" "$asked" "refused absent $file;"
    : > "$file"
done
ask 'load 2024-03-01' 1
check it_came "$asked" 'ok load 2024-03-01;'
ask 'day 2024-03-02' 1
check no_modifications "$asked" 'refused absent modifications-2024-03-02.txt;'
{ row 2 B 2; echo; } > modifications-2024-03-02.txt
ask 'day 2024-03-02' 1
check no_deletes "$asked" 'refused absent deletes-2024-03-02.txt;'
: > deletes-2024-03-02.txt
ask 'day 2024-03-02' 1
check no_alternate_modifications "$asked" 'refused absent alternateNamesModifications-2024-03-02.txt;'
: > alternateNamesModifications-2024-03-02.txt
ask 'day 2024-03-02' 1
check no_alternate_deletes "$asked" 'refused absent alternateNamesDeletes-2024-03-02.txt;'
: > alternateNamesDeletes-2024-03-02.txt
ask 'day 2024-03-02' 1
check they_came "$asked" 'ok day 2024-03-02;'
{ row 1 Z 9; echo; } > other && mv other allCountries.txt
ask 'load 2024-03-05' 1
check replaced "$asked" 'ok load 2024-03-05;'
ask 'get 1' 2
check by_the_new_one "$asked" "$(row 1 Z 9);ok 1;"
rm allCountries.txt
ask 'load 2024-03-06' 1
check it_went "$asked" 'refused absent allCountries.txt;'
exec 3>&- 4<&-
wait
cd ..

# Each read and each write of a file that moves half of its bytes, once: all is as where it moves them all.
cat > short.c << 'END'
#define _GNU_SOURCE
#include <dlfcn.h>
#include <stdlib.h>
#include <string.h>
#include <unistd.h>
/* The call of this name and number moves half of its bytes; then a line on standard error tells so. */
static size_t half(const char *name, size_t n) {
    static long calls;
    const char *wanted = getenv("SHORT_CALL");
    if (n < 2 || !wanted || strcmp(wanted, name) || ++calls != atol(getenv("SHORT_NUMBER"))) return n;
    if (write(2, "short\n", 6) != 6) _exit(99);
    return n / 2;
}
ssize_t pread(int file, void *bytes, size_t n, off_t at) {
    static ssize_t (*real)(int, void *, size_t, off_t);
    if (!real) *(void **)&real = dlsym(RTLD_NEXT, "pread");
    return real(file, bytes, half("pread", n), at);
}
ssize_t pwrite(int file, const void *bytes, size_t n, off_t at) {
    static ssize_t (*real)(int, const void *, size_t, off_t);
    if (!real) *(void **)&real = dlsym(RTLD_NEXT, "pwrite");
    return real(file, bytes, half("pwrite", n), at);
}
END
if command -v cc > /dev/null && cc -shared -fPIC -o short.so short.c -ldl 2> cc.err; then
    mkdir short saved && cd short || exit 1
    for id in $(seq 1 2000); do row "$id" "Place $id" "$id"; echo; done > allCountries.txt
    empty_others
    "$program" serve <<< 'load 2024-03-01' > ../reply
    cp "${mirror[@]}" ../saved
    sed 's/Place/Town/' allCountries.txt > modifications-2024-03-02.txt
    : > deletes-2024-03-02.txt
    empty_others
    printf 'day 2024-03-02\nget 1\nget 2000\n' > ../requests
    { echo 'ok day 2024-03-02'; for id in 1 2000; do row "$id" "Town $id" "$id"; printf '\nok 1\n'; done; } > ../wanted
    sed 1d ../wanted > ../wanted_again
    for call in pread pwrite; do
        met=0
        for number in $(seq 60); do
            cp ../saved/* .
            SHORT_CALL=$call SHORT_NUMBER=$number LD_PRELOAD=../short.so "$program" serve < ../requests > ../got 2> ../told
            check "short_${call}_$number" "$? $(cmp ../got ../wanted && echo same)" '0 same'
            check "behind_short_${call}_$number" "$("$program" serve <<< $'get 1\nget 2000' | cmp - ../wanted_again && echo same)" same
            grep -q '^short$' ../told || break
            met=$((met + 1))
        done
        check "some_short_$call" $((met > 3)) 1
        echo "$call was short at each of its first $met calls"
    done
    cd ..
else
    echo "skipped: short reads and writes, since there is no C compiler"
fi

finish

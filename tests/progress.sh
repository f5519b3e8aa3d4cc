#!/usr/bin/env bash
# How far a load is read, on standard error: shown where that is a terminal, not more than ten times a second, and cleared in the end; nothing of
# it where standard error is a file or `GAZ_QUIET` is set. Standard output is the same in all cases. A pseudo-terminal is Python's.
set -u
. "$(dirname "$0")/lib/expect.bash"
cd "$folder" || exit 1
"$program" make 7 200000 < /dev/null > allCountries.txt
empty_others

# over_a_terminal WORD..: runs these words with standard error on a terminal, leaves what came there in `seen` and what was printed in
# `printed`, and prints the status and how many tenths of a second it took.
over_a_terminal() {
    python3 - "$@" << 'END_OF_PYTHON'
import os, pty, subprocess, sys, threading, time
ours, theirs = pty.openpty()
seen = bytearray()
def read():
    try:
        while piece := os.read(ours, 4096):
            seen.extend(piece)
    except OSError:
        pass
began = time.monotonic()
with open("printed", "wb") as printed:
    process = subprocess.Popen(sys.argv[1:], stdin=subprocess.PIPE, stdout=printed, stderr=theirs)
    os.close(theirs)
    reader = threading.Thread(target=read)
    reader.start()
    process.communicate(b"load 2024-03-01\nget 7\n")
reader.join()
open("seen", "wb").write(seen)
print(process.returncode, int((time.monotonic() - began) * 10))
END_OF_PYTHON
}

remove_mirror
read -r status tenths < <(over_a_terminal "$program" serve)
reply=$'ok load 2024-03-01\n'"$(sed -n 7p allCountries.txt)"$'\nok 1'
check printed "$status $(cat printed)" "0 $reply"
tr '\r' '\n' < seen | sed $'s/\x1b\\[K$//' | grep . > shown
check each_line "$(grep -v -x -E 'allCountries\.txt [0-9]+%, [0-9]+ rows, [0-9]+ rows a second' shown)" ''
check some_lines "$(($(wc -l < shown) > 0))" 1
check not_too_many "$(($(wc -l < shown) <= tenths + 1))" 1
check they_rise "$(sort -c -t ' ' -k 3,3n shown && echo rising)" rising
check at_most_all "$(($(tail -n 1 shown | cut -d ' ' -f 3) <= 200000))" 1
check cleared "$(tail -c 4 seen | od -An -c | tr -d ' ')" '\r033[K'

remove_mirror
read -r status tenths < <(GAZ_QUIET=1 over_a_terminal "$program" serve)
check quiet "$status $(cat printed) $(stat -c %s seen)" "0 $reply 0"
remove_mirror
check a_file "$(printf 'load 2024-03-01\nget 7\n' | "$program" serve 2> seen; echo "status $? $(stat -c %s seen)")" "$reply"$'\nstatus 0 0'

finish

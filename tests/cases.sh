#!/usr/bin/env bash
# tests/cases.sh [FILE..]: runs of requests over small files, each in a folder of its own, from the tables in tests/cases.
# A table has cases; each begins with a line `== case NAME`, and has sections `== file NAME`, `== requests` and `== replies`.
# A section's lines go on to the next one, but for an empty line before the next case. Where its first line ends with
# `without its last LF`, the LF at its end is left out. Files of alternate names that a case doesn't have are empty, beside the
# other files of a load and of a day; `== no file NAME` leaves one out. A case ends with status 0.
set -u
. "$(dirname "$0")/lib/expect.bash"

# cut_up TABLE FOLDER: writes each case into a folder of its own, with its name, its files, its requests and its replies.
cut_up() {
    awk -v folder="$2" '
        function put() { if (held != "") { printf "%s", (is_cut ? substr(held, 1, length(held) - 1) : held) > path }; if (path != "") close(path); held = ""; path = "" }
        function begin(to) { put(); path = to; is_cut = sub(/ without its last LF$/, "", path); printf "" > path }
        /^== case / {
            if (held == "\n") held = ""; else sub(/\n\n$/, "\n", held)
            put()
            case_folder = sprintf("%s/%03d", folder, ++count)
            system("mkdir -p " case_folder "/files")
            print substr($0, 9) > (case_folder "/name")
            close(case_folder "/name")
            next
        }
        /^== no file / { put(); path = ""; print substr($0, 12) > (case_folder "/left_out"); close(case_folder "/left_out"); next }
        /^== file / { begin(case_folder "/files/" substr($0, 9)); next }
        /^== requests/ { begin(case_folder "/requests" substr($0, 12)); next }
        /^== replies/ { begin(case_folder "/replies" substr($0, 11)); next }
        path != "" { held = held $0 "\n" }
        END { put() }
    ' "$1"
}

[ $# -gt 0 ] || set -- "$top"/tests/cases/*.case
for table in "$@"; do
    cases=$folder/$(basename "$table" .case)
    mkdir "$cases"
    cut_up "$table" "$cases"
    for one in "$cases"/*/; do
        empty_others "$one/files"
        [ ! -e "$one/left_out" ] || rm "$one/files/$(cat "$one/left_out")"
        (cd "$one/files" && "$program" serve < ../requests > ../got 2> ../errors; echo "status $?" >> ../errors)
        check "$(basename "$table"): $(cat "$one/name")" "$(cat "$one/errors" "$one/got"; echo end)" "$(echo 'status 0'; cat "$one/replies"; echo end)"
    done
done
check some_cases "$((passed + failed > 0))" 1

finish

# What the scripts under tests/ share: the built program, one expectation after another, and the count of those that fail.
top=$(cd "$(dirname "${BASH_SOURCE[0]}")/../.." && pwd)
program=$top/crates/gaz_main/out/gaz_main
[ -x "$program" ] || { echo "the program isn't built: $program"; exit 1; }
folder=$(mktemp -d)
trap 'rm -rf "$folder"' EXIT
passed=0
failed=0

# expect NAME STATUS TEXT WORDS..: runs the program with these words on the script's standard input and compares all it prints.
expect() {
    local name=$1 status=$2 text=$3 got
    shift 3
    got=$("$program" "$@" 2>&1; echo "status $?")
    check "$name" "$got" "$text""status $status"
}

# expect_anew NAME STATUS TEXT WORDS..: the same, begun with no mirror in the current folder.
expect_anew() {
    remove_mirror
    expect "$@"
}

# The five files of a mirror.
mirror=(mirror.left mirror.log mirror.mark mirror.right mirror.root)

remove_mirror() { rm -f "${mirror[@]}"; }

# check NAME GOT WANTED
check() {
    if [ "$2" = "$3" ]; then
        passed=$((passed + 1))
    else
        failed=$((failed + 1))
        printf '%s: got <%s>, wanted <%s>\n' "$1" "${2:0:300}" "${3:0:300}"
    fi
}

# row ID NAME POPULATION: a geoname line of class P in country AA, without its LF.
row() { printf '%s\t%s\t\t\t0\t0\tP\tPPL\tAA\t\t\t\t\t\t%s\t\t\t\t2024-02-01' "$1" "$2" "$3"; }

# The files of a load, in the order in which they are read.
load_files=(allCountries.txt alternateNamesV2.txt hierarchy.txt countryInfo.txt admin1CodesASCII.txt admin2Codes.txt)

# empty_others [FOLDER]: makes the other files of a load and of each day in this folder empty, where there is a dump or there are
# modifications of that date, but for those that are there.
empty_others() {
    local at=${1:-.} file date kind
    if [ -e "$at/allCountries.txt" ]; then
        for file in "${load_files[@]}"; do [ -e "$at/$file" ] || : > "$at/$file"; done
    fi
    for file in "$at"/modifications-*.txt; do
        date=${file##*/modifications-}
        for kind in alternateNamesModifications alternateNamesDeletes; do
            [ ! -e "$file" ] || [ -e "$at/$kind-$date" ] || : > "$at/$kind-$date"
        done
    done
}

# made_files: the files of this folder but for those of the export.
made_files() { ls -A | grep -v -x -F -e "$(printf '%s\n' "${load_files[@]}")" | grep -v -e '^modifications-' -e '^deletes-' -e '^alternateNames'; }

finish() {
    echo "$passed passed, $failed failed"
    [ "$failed" = 0 ]
}

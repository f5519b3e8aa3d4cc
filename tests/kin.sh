#!/usr/bin/env bash
# tests/kin.sh [SEED]: chains and children over tables that are too long for tests/cases/kin.case: the ends of what a chain, an answer and the table of
# countries may hold, and tables made at random, beside the rules as tests/lib/kin.py has them.
set -u
. "$(dirname "$0")/lib/expect.bash"
cd "$folder" || exit 1

# A chain has at most 64 rows: the one of place 65 has no room for the place at the top.
mkdir chain && cd chain || exit 1
for id in $(seq 1 130); do row "$id" "Place $id" "$id"; echo; done > allCountries.txt
for id in $(seq 1 129); do printf '%d\t%d\tADM\n' "$id" $((id + 1)); done > hierarchy.txt
empty_others
expect_anew a_load_of_a_long_chain 0 $'ok load 2024-03-01\n' serve <<< 'load 2024-03-01'
for id in 63 64 65 130; do
    first=$((id > 64 ? id - 63 : 1))
    expect "the chain of place $id" 0 "$(sed -n "$first,${id}p" allCountries.txt)"$'\n'"ok $((id - first + 1))"$'\n' serve <<< "hierarchy $id"
done
# A circle of 64 is told whole, and so is one of 65 but for its last.
for length in 64 65; do
    { head -n $((length - 1)) hierarchy.txt; printf '%d\t1\tADM\n' $length; } > circle.txt
    mkdir circle_$length && cp allCountries.txt circle_$length && mv circle.txt circle_$length/hierarchy.txt && cd circle_$length || exit 1
    empty_others
    expect_anew "a circle of $length" 0 $'ok load 2024-03-01\n'"$(for id in $(seq $((length - 62)) $length) 1; do sed -n "${id}p" allCountries.txt; done)"$'\nok 64\n' serve <<< $'load 2024-03-01\nhierarchy 1'
    cd ..
done
cd ..

# 1,001 children: 200 are told where nothing else is asked, and 1,000 at most.
mkdir children && cd children || exit 1
{ row 1 Top 1; echo; for id in $(seq 2 1002); do row "$id" "Place $id" $((id % 7)); echo; done; } > allCountries.txt
for id in $(seq 2 1002); do printf '1\t%d\n' "$id"; done > hierarchy.txt
empty_others
tail -n +2 allCountries.txt | sort -t $'\t' -k15,15nr -k1,1n > ../ordered.txt
expect_anew a_load_of_many_children 0 $'ok load 2024-03-01\n' serve <<< 'load 2024-03-01'
for words in '' ' maxRows=0' ' maxRows=1' ' maxRows=200' ' maxRows=999' ' maxRows=1000'; do
    most=${words#*=}
    most=${most:-200}
    expect "children 1$words" 0 "$(head -n "$most" ../ordered.txt; echo "ok $most")"$'\n' serve <<< "children 1$words"
done
cd ..

# 1,024 countries are accepted, with comments and with a line that takes the place of one; one more is refused by its line.
mkdir countries && cd countries || exit 1
row 1 A 1 > allCountries.txt
country() { printf '%s\t\t\t\t\t\t\t\t\t\t\t\t\t\t\t\t%s\n' "$1" "${2-}"; }
for a in {A..Z}; do for b in {A..Z} {0..9}; do for c in {A..B}; do echo "$a$b$c"; done; done; done | head -n 1025 > codes.txt
while read -r code; do country "$code"; done < codes.txt > ../all.txt
empty_others
cp ../all.txt countryInfo.txt
expect_anew a_country_too_many 0 $'refused full countryInfo.txt 1025 country\nrefused notloaded\n' serve <<< $'load 2024-03-01\nget 1'
head -n 1024 ../all.txt > countryInfo.txt
expect_anew as_many_as_may_be 0 $'ok load 2024-03-01\n'"$(row 1 A 1)"$'\nok 1\n' serve <<< $'load 2024-03-01\nget 1'
{ echo '# a comment'; head -n 1024 ../all.txt; echo; head -n 1 ../all.txt; echo '#'; } > countryInfo.txt
expect_anew comments_and_a_line_again 0 $'ok load 2024-03-01\n' serve <<< 'load 2024-03-01'
{ echo '# a comment'; cat ../all.txt; } > countryInfo.txt
expect_anew comments_count_as_lines 0 $'refused full countryInfo.txt 1026 country\n' serve <<< 'load 2024-03-01'
# A malformed line before that one is told first, and one behind it isn't told.
{ head -n 1024 ../all.txt; country x; tail -n 1 ../all.txt; } > countryInfo.txt
expect_anew a_malformed_one_before 0 $'refused malformed countryInfo.txt 1025 code\n' serve <<< 'load 2024-03-01'
{ cat ../all.txt; country x; } > countryInfo.txt
expect_anew a_malformed_one_behind 0 $'refused full countryInfo.txt 1025 country\n' serve <<< 'load 2024-03-01'
cd ..

# Codes with bytes of zero, which is a byte like any other: each is another code, as the country of a row and as an admin code.
mkdir zeros && cd zeros || exit 1
printf 'AA\tOne\t\t\nAA\0\tTwo\t\t\nAA\0\0\tThree\t\t\n' > admin1CodesASCII.txt
: > admin2Codes.txt
{
    printf '%d\tC%d\t\t\t0\t0\tA\tPCLI\t%b\t\t\t\t\t\t\t\t\t\t\n' 1 1 AA 2 2 'AA\0000'
    printf '%d\tD%d\t\t\t0\t0\tA\tADM1\tAA\t\t%b\t\t\t\t\t\t\t\t\n' 3 3 1 4 4 '1\0000'
    printf '%d\tP%d\t\t\t0\t0\tP\tPPL\t%b\t\t%b\t\t\t\t\t\t\t\t\n' 11 11 AA '' 12 12 'AA\0000' '' 13 13 AA 1 14 14 AA '1\0000' 15 15 AA '1\00001'
} > allCountries.txt
empty_others
printf 'load 2024-03-01\n%badmin AA\nadmin AA\0\nadmin AA\0\0\nadmin AA\0\0\0\n' "$(for id in 11 12 13 14 15; do printf 'hierarchy %d\\n' $id; done)" > requests
line() { sed -n "/^$1\t/p" allCountries.txt; }
{
    echo 'ok load 2024-03-01'
    for ids in '1 11' '2 12' '1 3 13' '1 4 14' '1 15'; do for id in $ids; do line "$id"; done; echo "ok $(wc -w <<< "$ids")"; done
    printf 'AA\tOne\t\t\nok 1\nAA\0\tTwo\t\t\nok 1\nAA\0\0\tThree\t\t\nok 1\nok 0\n'
} > wanted
rm -f "${mirror[@]}"
"$program" serve < requests > got
check codes_with_zeros "$? $(cmp got wanted && echo same)" '0 same'
cd ..

# made_tables SEED: the files of a load with 240 rows, whose countries, codes and links often meet.
made_tables() {
    awk -v seed="$1" 'BEGIN {
        srand(seed)
        for (n = 0; n < 240; n++) {
            id = 1 + int(rand() * 300)
            split("PPL PPLA ADM1 ADM2 ADM3 ADM4 ADM5 PCLI PCLD PCLX", codes, " ")
            class = rand() < 0.85 ? "A" : rand() < 0.7 ? "P" : "T"
            code = codes[1 + int(rand() * 10)]
            if (code ~ /^PPL/ && rand() < 0.8) class = "P"
            printf "%d\tPlace %d.%d\t\t\t0\t0\t%s\t%s\t%s\t", id, id, n, class, code, substr("AABBCC", 1 + 2 * int(rand() * 3.6), 2) > "allCountries.txt"
            for (level = 1; level <= 4; level++) printf "\t%s", rand() < 0.12 ? "" : rand() < 0.06 ? "00" : level == 1 ? "0" (1 + int(rand() * 2)) : 1 + int(rand() * 2) > "allCountries.txt"
            printf "\t%s\t\t\t\t2024-02-01\n", rand() < 0.1 ? "" : int(rand() * 20) > "allCountries.txt"
        }
        for (n = 0; n < 120; n++) {
            type = rand() < 0.4 ? "\tADM" : rand() < 0.5 ? "" : rand() < 0.5 ? "\t" : "\tother"
            printf "%d\t%d%s\n", 1 + int(rand() * 310), 1 + int(rand() * 310), type > "hierarchy.txt"
        }
        print "#ISO\tISO3" > "countryInfo.txt"
        if (rand() < 0.7) printf "AA\t\t\t\t\t\t\t\t\t\t\t\t\t\t\t\t%d\t\n", 1 + int(rand() * 310) > "countryInfo.txt"
        print "" > "countryInfo.txt"
        if (rand() < 0.7) printf "BB\t\t\t\t\t\t\t\t\t\t\t\t\t\t\t\t%s\n", rand() < 0.5 ? "" : 1 + int(rand() * 310) > "countryInfo.txt"
        for (n = 0; n < 20; n++) printf "AA.%02d\tCode %d\tCode %d\t%d\n", int(rand() * 9), n, n, n > "admin1CodesASCII.txt"
        for (n = 0; n < 20; n++) printf "AA.%02d%s\tCode %d\tCode %d\t%d\n", int(rand() * 9), rand() < 0.8 ? "." int(rand() * 3) : "", n, n, n > "admin2Codes.txt"
    }'
    : > alternateNamesV2.txt
}
command -v python3 > /dev/null || { echo "skipped: made tables, since there is no python3"; finish; exit; }
first=${1:-$RANDOM}
for seed in $(seq "$first" $((first + 9))); do
    mkdir "made_$seed" && cd "made_$seed" || exit 1
    made_tables "$seed"
    { seq 0 311 | sed -n '2,$s/.*/hierarchy &\nchildren &\nchildren & maxRows=3/p'; for n in 00 01 02 03 04 05 06 07 08; do printf 'admin AA.%s\n' $n $n.0 $n.1 $n.2; done; } > ../requests
    python3 "$top/tests/lib/kin.py" . < ../requests > ../wanted
    { echo 'load 2024-03-01'; cat ../requests; } > ../with_load
    "$program" serve < ../with_load | tail -n +2 > ../got
    check "made tables of seed $seed" "$(cmp ../got ../wanted && echo same)" same
    echo "seed $seed: $(grep -c -v -e '^ok [01]$' ../wanted) lines, chains and lists of up to $(sed -n 's/^ok //p' ../wanted | sort -n | tail -n 1)"
    cd ..
done

finish

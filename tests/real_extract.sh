#!/usr/bin/env bash
# A real GeoNames extract, where Debian's package libtimezonemap-data has put one: `scan` accepts all of it, and a load does with the
# package's table of countries and codes of the first level.
set -u
. "$(dirname "$0")/lib/expect.bash"

cities=/usr/share/libtimezonemap/ui/cities15000.txt
if [ ! -r "$cities" ]; then
    echo "skipped: no $cities (Debian's libtimezonemap-data)"
    finish
    exit
fi
expect accepted_whole 0 $'ok 0\n' scan 4294967295 < "$cities"
expect paris 0 "$(grep -P '^2988507\t' "$cities")"$'\nok 1\n' scan 2988507 < "$cities"

# One byte changed in the latitude of line 20,000.
awk -F '\t' -v OFS='\t' 'NR == 20000 { $5 = "x" substr($5, 2) } { print }' "$cities" > "$folder/changed.txt"
expect a_changed_latitude 1 $'refused malformed - 20000 latitude\n' scan 2988507 < "$folder/changed.txt"

# The package's countryInfo.txt is the export's of its day, with 51 lines of comments, and its admin1Codes.txt has the columns of
# admin1CodesASCII.txt: all lines of both fit. They are older than the regions of 2016, so Ile-de-France is FR.A8, and there is no
# FR.11. The extract has places of class P alone, so a chain over these files is the place itself.
data=$(dirname "$cities")
mkdir "$folder/real" && cd "$folder/real" || exit 1
cp "$cities" allCountries.txt
cp "$data/countryInfo.txt" countryInfo.txt
cp "$data/admin1Codes.txt" admin1CodesASCII.txt
empty_others
expect all_lines_fit 0 $'ok load 2024-03-01\n' serve <<< 'load 2024-03-01'
expect a_code 0 "$(grep -P '^FR\.A8\t' admin1CodesASCII.txt)"$'\nok 1\n' serve <<< 'admin FR.A8'
expect a_code_of_later_years 0 $'ok 0\n' serve <<< 'admin FR.11'
sed 's/\t.*//; s/^/admin /' admin1CodesASCII.txt > codes
check every_code "$("$program" serve < codes | grep -v -x 'ok 1' | cmp - admin1CodesASCII.txt && echo same)" same
# Paris, Lyon, London, New York, Tokyo, Berlin, Sydney, Sao Paulo, Cairo, Singapore
ids=(2988507 2996944 2643743 5128581 1850147 2950159 2147714 3448439 360630 1880252)
chains() { printf 'hierarchy %d\n' "${ids[@]}"; }
expect ten_chains_of_places_alone 0 "$(for id in "${ids[@]}"; do grep -P "^$id\t" "$cities"; echo 'ok 1'; done)"$'\n' serve < <(chains)

# The two files name a place for each country and each division of level 1: where these are rows too, the chains are a country, a division, where it
# has one, and the place. The rules in awk, over columns of the two files, which are compared with those of tests/lib/kin.py too.
awk -F '\t' -v OFS='\t' 'FNR == NR { if ($0 !~ /^#/ && $17 != "") { print $17, $5, $5, "", 0, 0, "A", "PCLI", $1, "", "00", "", "", "", $8, "", "", "", ""; } next }
    { split($1, code, "."); print $4, $2, $3, "", 0, 0, "A", "ADM1", code[1], "", code[2], "", "", "", "", "", "", "", "" }' countryInfo.txt admin1CodesASCII.txt >> allCountries.txt
expect with_countries_and_divisions 0 $'ok load 2024-03-02\n' serve <<< 'load 2024-03-02'
chains | "$program" serve > got
awk -F '\t' -v ids="${ids[*]}" '
    { place[$1] = $0; country[$1] = $9; code[$1] = $11 }
    $8 == "ADM1" && $11 != "00" && (!(($9, $11) in division) || $1 < division[$9, $11]) { division[$9, $11] = $1 }
    $8 == "PCLI" { land[$9] = $1 }
    END {
        for (n = 1; n <= split(ids, id, " "); n++) {
            i = id[n]; d = division[country[i], code[i]]; count = 1
            if (country[i] in land && land[country[i]] != i) { print place[land[country[i]]]; count++ }
            if (d != "") { print place[d]; count++ }
            print place[i]; print "ok " count
        }
    }' allCountries.txt > wanted
check ten_chains "$(cmp got wanted && echo same)" same
echo "ten chains of $(grep -c -v '^ok ' wanted) rows"
command -v python3 > /dev/null || { echo "skipped: the rules in Python, since there is no python3"; finish; exit; }
check the_same_by_the_rules "$(chains | python3 "$top/tests/lib/kin.py" . | cmp - wanted && echo same)" same
{ chains; printf 'children %d maxRows=50\n' 3017382 3012874 2921044 3041565; } > requests
check children_by_the_rules "$("$program" serve < requests | cmp - <(python3 "$top/tests/lib/kin.py" . < requests) && echo same)" same

finish

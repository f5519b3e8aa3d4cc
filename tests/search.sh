#!/usr/bin/env bash
# Searches over many rows, through standard input and output: the farthest cut that can be asked for, and a real extract beside
# sqlite3. tests/cases/search.case has the small ones.
set -u
. "$(dirname "$0")/lib/expect.bash"

# ids: the first column of each row of a reply.
ids() { grep -v '^ok ' | cut -f1; }

# 6,001 rows, of which those with the greatest ids have the greatest populations; every third has that of the one before.
cd "$folder" || exit 1
mkdir many && cd many || exit 1
awk 'BEGIN { for (id = 1; id <= 6001; id++) printf "%d\tPlace %d\tPlace %d\t\t0\t0\tP\tPPL\tAA\t\t\t\t\t\t%d\t\t\t\t2024-02-01\n", id, id, id, id % 3 ? id : id - 1 }' > allCountries.txt
empty_others
sort -t $'\t' -k15,15nr -k1,1n allCountries.txt > ordered.txt
expect a_load 0 $'ok load 2024-03-01\n' serve <<< 'load 2024-03-01'
expect the_last_rows_that_can_be_asked_for 0 "$(sed -n 5001,6000p ordered.txt)"$'\nok 1000\n' serve <<< $'search startRow=5000\tmaxRows=1000'
expect the_first_hundred 0 "$(sed -n 1,100p ordered.txt)"$'\nok 100\n' serve <<< 'search'
expect with_a_name 0 "$(sed -n 5001,6000p ordered.txt)"$'\nok 1000\n' serve <<< $'search name_startsWith=PLACE\tstartRow=5000\tmaxRows=1000'
cd "$folder" || exit 1

# Ten questions over a real extract, where Debian's libtimezonemap-data has put one: the ids of their first 6,000 answers are
# those that sqlite3 finds. It compares names byte by byte but for the case of ASCII letters, so the values are ASCII, and so
# are the first letters of what they find.
cities=/usr/share/libtimezonemap/ui/cities15000.txt
if [ -r "$cities" ] && command -v sqlite3 > /dev/null; then
    mkdir real && cd real || exit 1
    cp "$cities" allCountries.txt
    empty_others
    expect a_real_load 0 $'ok load 2024-03-01\n' serve <<< 'load 2024-03-01'
    columns='id INTEGER, name TEXT, ascii TEXT, other TEXT, latitude REAL, longitude REAL, class TEXT, code TEXT, country TEXT, cc2 TEXT, a1 TEXT, a2 TEXT, a3 TEXT, a4 TEXT, population INTEGER, elevation TEXT, dem TEXT, zone TEXT, day TEXT'
    printf '.mode ascii\n.separator "\\t" "\\n"\nCREATE TABLE rows (%s);\n.import allCountries.txt rows\n' "$columns" | sqlite3 rows.db
    # question NAME PARAMETERS CONDITION
    question() {
        local name=$1 parameters=$2 condition=$3 found wanted
        found=$(for start in 0 1000 2000 3000 4000 5000; do printf 'search %s\tmaxRows=1000\tstartRow=%d\n' "$parameters" "$start"; done | "$program" serve | ids)
        wanted=$(sqlite3 rows.db "SELECT id FROM rows WHERE $condition ORDER BY CAST(population AS INTEGER) DESC, id LIMIT 6000;")
        check "$name" "$(wc -l <<< "$found") $found" "$(wc -l <<< "$wanted") $wanted"
        check "$name has some" "$([ -n "$found" ] && echo some)" some
    }
    question paris 'name_equals=PARIS' "lower(name) = 'paris' OR lower(ascii) = 'paris'"
    question san 'name_startsWith=san' "lower(name) LIKE 'san%' OR lower(ascii) LIKE 'san%'"
    question springfield_in_the_united_states $'name_equals=springfield\tcountry=US' "(lower(name) = 'springfield' OR lower(ascii) = 'springfield') AND country = 'US'"
    question zurich_by_its_asciiname 'name_equals=zurich' "lower(name) = 'zurich' OR lower(ascii) = 'zurich'"
    question capitals 'featureCode=PPLC' "code = 'PPLC'"
    question cities_of_japan 'country=JP' "country = 'JP'"
    question a_region $'country=FR\tadminCode1=A8\tfeatureClass=P' "country = 'FR' AND a1 = 'A8' AND class = 'P'"
    question a_box $'north=50\tsouth=45\teast=10\twest=0' 'latitude BETWEEN 45 AND 50 AND longitude BETWEEN 0 AND 10'
    question a_box_across_the_antimeridian $'north=0\tsouth=-50\teast=-170\twest=170' 'latitude BETWEEN -50 AND 0 AND (longitude >= 170 OR longitude <= -170)'
    question rows_without_admin_code 'adminCode1=' "a1 = ''"
else
    echo "skipped: no $cities (Debian's libtimezonemap-data), or no sqlite3"
fi

finish

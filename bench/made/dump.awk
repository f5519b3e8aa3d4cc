# The files of a load from the made table (`gaz_main make 7 ROWS`): its rows, with a continent, 26 countries and their divisions of three levels among
# the first 26,000 of them, and towns below these, of which some have no division of level 3; two alternate names for each row, links, a table of
# half of the countries, and the admin codes of both levels.
BEGIN { FS = OFS = "\t" }
{
    at = (NR - 1) % 50
    is_first = NR <= 26000
    $7 = "P"; $8 = "PPL"; $12 = sprintf("%03d", 1 + NR % 5); $13 = int(NR / 5) % 4 ? int(NR / 5) % 4 : ""
    if (is_first && NR % 1000 == 1) {
        $7 = "A"; $8 = "PCLI"; $11 = "00"; $12 = $13 = ""
        print 30, $1, "" > "hierarchy.txt"
        if (NR % 2000 == 1) print $9 "\t\t\t\t\t\t\t\t\t\t\t\t\t\t\t\t" $1 "\t\t" > "countryInfo.txt"
    } else if (NR == 30) { $7 = "L"; $8 = "CONT"; $9 = $11 = $12 = $13 = "" }
    else if (is_first && (at == 0 || NR % 1000 == 2)) {
        $7 = "A"; $8 = "ADM1"; $12 = $13 = ""
        print $9 "." $11, $2, $3, $1 > "admin1CodesASCII.txt"
    } else if (is_first && at >= 2 && at <= 6) {
        $7 = "A"; $8 = "ADM2"; $12 = sprintf("%03d", at - 1); $13 = ""
        print $9 "." $11 "." $12, $2, $3, $1 > "admin2Codes.txt"
    } else if (is_first && at >= 7 && at <= 21) {
        $7 = "A"; $8 = "ADM3"; $12 = sprintf("%03d", 1 + (at - 7) % 5); $13 = 1 + int((at - 7) / 5)
    } else if (NR % 50 == 0) print NR - 20, NR, "ADM" > "hierarchy.txt"
    else if (NR % 77 == 0) print NR - 76, NR, "" > "hierarchy.txt"
    print > "allCountries.txt"
    print 2 * NR - 1, NR, "de", "Gemachter Ort " NR, 1, "", "", "", "", "" > "alternateNamesV2.txt"
    print 2 * NR, NR, "fr", "Lieu fait " NR, "", "", "", "", "", "" > "alternateNamesV2.txt"
}

# The checks of a geoname line as `scan` makes them, but for UTF-8; the word `id` is the one that is looked for.
function refuse(why) { print "refused malformed - " NR " " why; bad = 1; exit 1 }
function is_degrees(s, max,    point) {
    if (s !~ /^-?[0-9][0-9]?[0-9]?(\.[0-9]+)?$/) return 0
    point = index(s, ".")
    return (point == 0 || length(s) - point <= 12) && s + 0 <= max && s + 0 >= -max
}
function is_number(s, digits, max) {
    return s == "" || (s ~ /^-?[0-9]+$/ && length(s) <= digits + (s ~ /^-/) && s + 0 <= max && s + 0 >= -max - 1)
}
function days_in(year, month) {
    if (month == 2) return (year % 4 == 0 && year % 100 != 0) || year % 400 == 0 ? 29 : 28
    return month == 4 || month == 6 || month == 9 || month == 11 ? 30 : 31
}
function is_date(s,    year, month, day) {
    if (s == "") return 1
    if (s !~ /^[0-9][0-9][0-9][0-9]-[0-9][0-9]-[0-9][0-9]$/) return 0
    year = substr(s, 1, 4) + 0; month = substr(s, 6, 2) + 0; day = substr(s, 9, 2) + 0
    return month >= 1 && month <= 12 && day >= 1 && day <= days_in(year, month)
}
length($0) > 65535 { refuse("length") }
NF != 19 { refuse("columns") }
$1 !~ /^[0-9]+$/ || length($1) > 10 || $1 + 0 < 1 || $1 + 0 > 4294967295 { refuse("id") }
!is_degrees($5, 90) { refuse("latitude") }
!is_degrees($6, 180) { refuse("longitude") }
!is_number($15, 19, 9223372036854775807) { refuse("population") }
!is_number($16, 10, 2147483647) { refuse("elevation") }
!is_number($17, 10, 2147483647) { refuse("dem") }
!is_date($19) { refuse("date") }
$1 + 0 == id { line = $0; found = 1 }
END { if (!bad) { if (found) { print line; print "ok 1" } else print "ok 0" } }

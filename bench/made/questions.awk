# The questions of each kind, the same for both in the same order: as lines in KIND.requests, HERE of them, and for sqlite3 THERE of them, as statements
# in KIND.sql, or as what is asked with a number in KIND.asked, where one statement of peers/KIND.sql asks them all.
# Words: rows, and for each kind its two numbers, as get=100,100.
function ask(kind, q, request, statement) {
    if (q <= here[kind]) print request > (kind ".requests")
    if (q > there[kind]) return
    if (kind ~ /^(get|admin|hierarchy)$/) print q, statement > (kind ".asked")
    else print statement ";" > (kind ".sql")
}
function places(test, most) { return "SELECT * FROM places WHERE " test " ORDER BY population DESC, id LIMIT " most }
# The places of which a name passes the test, which has K for the name's key; of a language only alternate names count.
function named(test, lang,    name, ascii, text) {
    name = ascii = text = test
    gsub(/K/, "lower(name)", name); gsub(/K/, "lower(ascii)", ascii); gsub(/K/, "lower(text)", text)
    text = "SELECT place FROM alternates WHERE " text
    if (lang != "") return "id IN (" text " AND lang = '" lang "')"
    return "id IN (SELECT id FROM places WHERE " name " UNION ALL SELECT id FROM places WHERE " ascii " UNION ALL " text " AND lang NOT IN ('link', 'wkdt', 'post'))"
}
BEGIN {
    OFS = "\t"
    n = split(numbers, kinds, " ")
    for (k = 1; k <= n; k++) {
        split(kinds[k], pair, "[=,]")
        here[pair[1]] = pair[2]
        there[pair[1]] = pair[3]
        if (pair[2] > most) most = pair[2] + 0
        if (pair[3] > most) most = pair[3] + 0
    }
    divisions = rows < 26000 ? rows : 26000
    countries = int((divisions + 999) / 1000)
    for (q = 1; q <= most; q++) {
        id = q * 7919 % rows + 1
        south = q * 31 % 170 - 85; west = q * 57 % 350 - 175
        country = sprintf("X%c", 65 + q % countries)
        above = q * 127 % divisions + 1
        ask("get", q, "get " id, id)
        ask("equals", q, "search name_equals=PLACE " id, places(named("K = 'place " id "'"), 100))
        ask("starts", q, "search name_startsWith=place " id "\tmaxRows=10", places(named("K >= 'place " id "' AND K < 'place " id "' || char(1114111)"), 10))
        ask("alternate", q, "search name_equals=lieu FAIT " id, places(named("K = 'lieu fait " id "'"), 100))
        ask("language", q, "search name_equals=gemachter ort " id "\tsearchlang=de", places(named("K = 'gemachter ort " id "'", "de"), 100))
        ask("box", q, "search north=" south + 1 "\tsouth=" south "\teast=" west + 1 "\twest=" west "\tmaxRows=10", places("id IN (SELECT id FROM boxes WHERE north >= " south " AND south <= " south + 1 " AND east >= " west " AND west <= " west + 1 ") AND CAST(latitude AS REAL) BETWEEN " south " AND " south + 1 " AND CAST(longitude AS REAL) BETWEEN " west " AND " west + 1, 10))
        ask("code", q, "search country=" country "\tfeatureCode=ADM3\tmaxRows=10", places("country = '" country "' AND code = 'ADM3'", 10))
        code = sprintf("%s.%02d.%03d", country, 1 + q % 20, 1 + q % 5)
        ask("admin", q, "admin " code, code)
        ask("hierarchy", q, "hierarchy " id, id)
        ask("children", q, "children " above, "SELECT places.* FROM places JOIN above ON above.id = places.id WHERE places.id IN (SELECT id FROM places WHERE country = (SELECT country FROM places WHERE id = " above ") UNION SELECT child FROM links WHERE parent = " above ") AND places.class IN ('A', 'P') AND above.parent = " above " ORDER BY places.population DESC, places.id LIMIT 200")
    }
}

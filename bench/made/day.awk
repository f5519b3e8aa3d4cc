# The files of the day 2024-03-02 from the rows of a dump: LINES modifications, of which nine of ten change a row and the others add one, GONE
# deletes, NAMES modifications of alternate names and NAMES_GONE deletes of these. The changed rows lie all over the table.
BEGIN {
    FS = OFS = "\t"
    day = "2024-03-02"
    added = int(lines / 10)
    step = int(rows / lines)
    if (step < 1) step = 1
    for (k = 0; k < names; k++) print 1 + 2 * (k * step % rows), 1 + k * step % rows, "de", "Neuer Ort " k, 1, "", "", "", "", "" > ("alternateNamesModifications-" day ".txt")
    for (k = 0; k < names_gone; k++) print 2 + 2 * (k * step % rows), "Lieu fait", "made" > ("alternateNamesDeletes-" day ".txt")
}
(NR - 1) % step == 0 && changed < lines - added {
    changed++
    $2 = $3 = "Changed place " $1
    $15 += 1000000
    $19 = day
    print > ("modifications-" day ".txt")
}
NR <= added {
    $1 = rows + NR
    $2 = $3 = "Added place " $1
    $19 = day
    line[NR] = $0
}
(NR - 2) % step == 0 && deleted < gone { deleted++; print NR, "Place", "made" > ("deletes-" day ".txt") }
END { for (k = 1; k <= added && k in line; k++) print line[k] > ("modifications-" day ".txt") }

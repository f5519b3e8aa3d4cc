# One row of the table, from the files of `measure` and `measure_writes` (lib.sh has the words); `told` keeps what the next row is compared with.
# Of the three runs the least time is told, by the clock and of the processor each by itself, and the greatest memory.
function commas(n,    s) {
    for (s = ""; length(n) > 3; n = substr(n, 1, length(n) - 3)) s = "," substr(n, length(n) - 2) s
    return n s
}
function short(x) { return x < 0.095 ? sprintf("%.2g", x) : x < 10 ? sprintf("%.2f", x) : x < 100 ? sprintf("%.1f", x) : commas(sprintf("%.0f", x)) }
function of_one(seconds) { return seconds < 0.01 ? short(seconds * 1000000) " µs" : short(seconds * 1000) " ms" }
# The least time of the processor in the runs of a name, and the greatest.
function read_runs(name,    line, field) {
    least = clock = -1
    greatest = memory = 0
    while ((getline line < (name ".runs")) > 0) {
        split(line, field, " ")
        if (clock < 0 || field[1] + 0 < clock) clock = field[1] + 0
        if (least < 0 || field[2] + 0 < least) least = field[2] + 0
        if (field[2] + 0 > greatest) greatest = field[2] + 0
        if (field[3] + 0 > memory) memory = field[3] + 0
    }
}
BEGIN {
    shortest = 0.001 # a time below this isn't measured
    if (before != "") {
        read_runs(before)
        opened = least
        if (greatest - least > shortest) shortest = greatest - least
    }
    read_runs(name)
    on_disk = (getline line < (name ".disk")) > 0
    if (on_disk) split(line, disk, " ")
    is_peer = what == "" && (getline line < "told") > 0
    if (is_peer) split(line, told, " ")
    by_clock = on_disk || told[4]
    work = by_clock ? clock : least - opened
    is_bound = work < shortest
    if (is_bound) work = shortest
    each = work / amount
    rate = unit == "each" ? (is_bound ? "under " : "") of_one(each) (amount > 1 ? " each" : "") : (is_bound ? "over " : "") short(amount / work) " " unit "/s"
    ratio = ""
    work = least - opened
    is_bound = work < shortest
    if (is_bound) work = shortest
    processor = work / amount
    clock_each = (clock > 0 ? clock : 0.001) / amount
    if (is_peer) {
        ratio = (is_bound > told[3] ? "at most " : is_bound < told[3] ? "at least " : "") short(processor / told[1])
        if (is_bound && told[3]) ratio = "?"
        if (before == "") ratio = ratio ", " short(clock_each / told[2])
    } else printf "%.12f %.12f %d %d\n", processor, clock_each, is_bound, on_disk > "told"
    printf "| %s | %s | %.3f | %.3f | %s | %s | %.1f |", what, by, clock, least, rate, ratio, memory * 0.001024
    if (on_disk) printf " %s | %s | %s |\n", commas(disk[1]), commas(disk[2]), commas(disk[3])
    else print " | | |"
}

#!/usr/bin/env python3
"""The made table and the files of a trial, by the formats alone: no line of the crates was read for it.

made_rows.py START ROWS            prints the table
made_rows.py START ROWS FOLDER     writes the files of the trial into the folder
"""
import os
import sys

DAY = "2000-01-02"


def thousandths(value):
    sign = "-" if value < 0 else ""
    whole, part = divmod(abs(value), 1000)
    return f"{sign}{whole}.{part:03d}"


def drawn_rows(start, rows):
    """Yields each row's number and the three numbers drawn for it."""
    x = 1 + start % 2147483646
    for i in range(1, rows + 1):
        a = x * 16807 % 2147483647
        b = a * 16807 % 2147483647
        c = x = b * 16807 % 2147483647
        yield i, a, b, c


def line(i, a, b, c, more=0, date="2000-01-01"):
    columns = [""] * 19
    columns[0] = str(i)
    columns[1] = columns[2] = f"Place {i}"
    columns[4] = thousandths(a % 180001 - 90000)
    columns[5] = thousandths(b % 360001 - 180000)
    columns[6], columns[7] = ("A", "ADM1") if i % 50 == 1 else ("P", "PPL")
    columns[8] = "X" + chr(ord("A") + (i - 1) // 1000 % 26)
    columns[10] = f"{1 + (i - 1) // 50 % 20:02d}"
    columns[14] = str(c % 1000000 + more)
    columns[17] = "Etc/UTC"
    columns[18] = date
    return "\t".join(columns) + "\n"


def files_of_trial(start, rows):
    """Yields each file's name and text."""
    drawn = list(drawn_rows(start, rows))
    yield "allCountries.txt", "".join(line(*row) for row in drawn)
    for name in ("alternateNamesV2", "hierarchy", "countryInfo", "admin1CodesASCII", "admin2Codes"):
        yield name + ".txt", ""
    changed = [line(*row, 1000000, DAY) for row in drawn if row[0] % 100 == 0]
    yield f"modifications-{DAY}.txt", "".join(changed)
    yield f"deletes-{DAY}.txt", "".join(f"{i}\tPlace {i}\tmade\n" for i in range(999, rows + 1, 1000))
    yield f"alternateNamesModifications-{DAY}.txt", ""
    yield f"alternateNamesDeletes-{DAY}.txt", ""


def main():
    start, rows = int(sys.argv[1]), int(sys.argv[2])
    if len(sys.argv) > 3:
        for name, text in files_of_trial(start, rows):
            with open(os.path.join(sys.argv[3], name), "w", encoding="ascii", newline="") as file:
                file.write(text)
    else:
        sys.stdout.writelines(line(*row) for row in drawn_rows(start, rows))


main()

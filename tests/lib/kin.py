#!/usr/bin/env python3
"""Answers to `hierarchy`, `children` and `admin` over the files of a load, by the rules alone: no line of the crates was read for it.

kin.py FOLDER < REQUESTS    prints what is to be answered to these requests behind a load of the files in the folder
"""
import os
import sys

POLITICAL = {b"PCL", b"PCLD", b"PCLF", b"PCLI", b"PCLIX", b"PCLS"}
LEVELS = {b"ADM1": 1, b"ADM2": 2, b"ADM3": 3, b"ADM4": 4}


def lines_of(folder, name):
    with open(os.path.join(folder, name), "rb") as file:
        text = file.read()
    lines = text.split(b"\n")
    return [line.split(b"\t") for line in (lines[:-1] if lines[-1] == b"" else lines)]


class Tables:
    """The lines of a load by their keys, each the last of its key, and what the rules ask of them."""

    def __init__(self, folder):
        self.rows = {int(row[0]): row for row in lines_of(folder, "allCountries.txt")}
        self.parents = {}
        for link in lines_of(folder, "hierarchy.txt"):
            kind = link[2] if len(link) > 2 else b""
            self.parents.setdefault((int(link[1]), kind), set()).add(int(link[0]))
        self.named = {}
        for country in lines_of(folder, "countryInfo.txt"):
            if country != [b""] and not country[0].startswith(b"#"):
                self.named[country[0]] = int(country[16]) if country[16].isdigit() else None
        self.codes = {}
        for name in ("admin1CodesASCII.txt", "admin2Codes.txt"):
            self.codes.update((code[0], code) for code in lines_of(folder, name))
        self.divisions = {}
        self.countries = {}
        for number, row in self.rows.items():
            level = self.level(row)
            if level:
                self.divisions.setdefault((level, row[8], *row[10 : 10 + level]), []).append(number)
            if self.is_country(row):
                self.countries.setdefault(row[8], []).append(number)

    def level(self, row):
        return LEVELS.get(row[7]) if row[6] == b"A" else None

    def is_country(self, row):
        return row[6] == b"A" and row[7] in POLITICAL

    def linked(self, number, kind):
        return [p for p in self.parents.get((number, kind), ()) if p in self.rows]

    def division(self, row, level):
        path = (row[8], *row[10 : 10 + level])
        if b"" in path or row[10] == b"00":
            return []
        return self.divisions.get((level, *path), [])

    def candidates(self, number):
        """Yields the places of each rule in turn, of which the least other than the place itself is its parent."""
        row = self.rows[number]
        yield self.linked(number, b"ADM")
        first = 0 if self.is_country(row) else (self.level(row) or 5) - 1
        for level in range(first, 0, -1):
            yield self.division(row, level)
        if not self.is_country(row) and row[8]:
            named = self.named.get(row[8])
            yield [named] if named in self.rows else []
            yield self.countries.get(row[8], [])
        yield self.linked(number, b"")

    def parent(self, number):
        for places in self.candidates(number):
            others = [place for place in places if place != number]
            if others:
                return min(others)
        return None

    def chain(self, number):
        chain = []
        while number in self.rows and number not in chain and len(chain) < 64:
            chain.append(number)
            number = self.parent(number)
        return chain[::-1]

    def children(self, number, most):
        below = [n for n, row in self.rows.items() if row[6] in (b"A", b"P") and self.parent(n) == number]
        below.sort(key=lambda n: (-int(self.rows[n][14] or 0), n))
        return below[:most]


def answer(tables, request):
    words = request.split(b" ")
    if words[0] == b"hierarchy":
        return [tables.rows[n] for n in tables.chain(int(words[1]))]
    if words[0] == b"children":
        most = int(words[2].split(b"=")[1]) if len(words) > 2 else 200
        return [tables.rows[n] for n in tables.children(int(words[1]), most)]
    code = tables.codes.get(request.split(b" ", 1)[1])
    return [code] if code else []


def main():
    tables = Tables(sys.argv[1])
    for request in sys.stdin.buffer.read().splitlines():
        lines = answer(tables, request)
        for line in lines:
            sys.stdout.buffer.write(b"\t".join(line) + b"\n")
        sys.stdout.buffer.write(b"ok %d\n" % len(lines))


main()

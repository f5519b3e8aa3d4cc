#!/usr/bin/env python3
"""Prints what `gaz_storing trial` has to print, by the rules alone: `bench/storing_model.py > crates/gaz_storing/stdout`.

It makes the same lines at random (crates/gaz_storing/src/lines.rt), keeps the five tables as maps, and makes of their lines all keys of the index as
docs/FORMAT.md has them, with names by Python's unicodedata. Which lines are refused it knows by how they were made. The digest is FNV-1a over all keys in
their order. What stands below the 3,000 steps follows from their numbers: the codes that are alike take the slots 0, 1 and 2, a record of more than 4,076
bytes is a chain, a line has at most 65,535 bytes, and the table of countries 1,024 lines."""
import itertools
import os
import sys

sys.path.insert(0, os.path.join(os.path.dirname(os.path.abspath(__file__)), "..", "tests", "lib"))
import index_keys as index  # noqa: E402

NAMES = ["Paris", "PARIS", "Évreux", "évreux", "Łódź", "a name that is longer than the 22 bytes of a key",
         "a name that is longer than the 22 bytes of another", ""]
CLASSES = ["P\tPPL", "A\tADM1", "A\tADM2", "A\tADM3", "A\tADM4", "A\tPCLI", "L\tPCLI", "A\tPCL", "A\tADMD"]
ADMINS = ["", "00", "01", "7", "a code of thirty bytes in all.."]
TYPES = ["ADM", "", "tourism", "region"]
COUNTRIES = ["XA", "XAB", "XABC", "XB", "X1", "99", "AAAA", "ZZ", "Q0", "A0A0"]
CODES = ["XA.01", "XA.02", "XB", "Q", "Q\0", "ABCDEFGHIJKLMNOPQRSTUV"] + ["ABCDEFGHIJKLMNOPQRSTUVW" + s for s in ["", "1", "2", "X.Y", "X.Z"]]
ROW, GONE, ALT, ALT_GONE, LINK, COUNTRY, CODE, REFUSED = range(8)


class Draws:
    def __init__(self, x):
        self.x = x

    def below(self, n):
        self.x = self.x * 16807 % 2147483647
        return self.x % n

    def one_of(self, words):
        return words[self.below(len(words))]

    def id(self):
        n = self.below(120)
        return n + 1 if n < 110 else 2 ** 32 - 1 - n % 10

    def degrees(self, most):
        size = self.below(most + 1)
        sign = self.one_of(["", "-"])
        return sign + str(size) + (self.one_of(["", ".5", ".000000000001"]) if size < most else "")

    def row(self):
        start = [str(self.id()), self.one_of(NAMES), self.one_of(NAMES)]
        letters = "a" * (3900 + self.below(5000) if self.below(30) == 0 else self.below(60))
        place = [self.degrees(90), self.degrees(180), self.one_of(CLASSES), self.one_of(COUNTRIES), ""]
        admins = [self.one_of(ADMINS) for _ in range(4)]
        return "\t".join(start + [letters] + place + admins + [str(self.below(1000)), "", "", "Europe/Paris", "2024-03-01"])

    def alternate(self):
        return f"{self.id()}\t{self.id()}\t{self.one_of(['', 'en', 'fr'])}\t{self.one_of(NAMES)}" + self.one_of(["", "\t1\t\t\t\t\t"])

    def link(self):
        ends = f"{1 + self.below(8)}\t{1 + self.below(8)}"
        return ends + "\t" + self.one_of(TYPES) if self.below(4) > 0 else ends

    def line(self, last):
        what = self.below(16)
        if what == 15:
            return last
        if what < 4:
            return ROW, self.row()
        if what < 6:
            return GONE, f"{self.id()}\ta name\ta reason"
        if what < 8:
            return ALT, self.alternate()
        if what < 9:
            return ALT_GONE, f"{self.id()}\ta name\ta reason"
        if what < 11:
            return LINK, self.link()
        if what < 12:
            return COUNTRY, self.one_of(COUNTRIES) + "\t" * 16 + f"{self.below(1000)}\t\t"
        if what < 13:
            return COUNTRY, self.one_of(["", "# a comment"])
        if what < 14:
            return CODE, f"{self.one_of(CODES)}\t{self.one_of(NAMES)}\t{self.one_of(NAMES)}\t{self.below(1000)}"
        self.below(9)
        return REFUSED, ""


class Tables:
    def __init__(self):
        self.rows, self.alternates, self.links, self.countries, self.codes = {}, {}, {}, {}, {}
        self.slots = {}
        self.refused = 0

    def step(self, kind, line):
        columns = line.split("\t")
        if kind == REFUSED:
            self.refused += 1
        elif kind == ROW:
            self.rows[int(columns[0])] = line
        elif kind == GONE:
            self.rows.pop(int(columns[0]), None)
        elif kind == ALT:
            self.alternates[int(columns[0])] = line
        elif kind == ALT_GONE:
            self.alternates.pop(int(columns[0]), None)
        elif kind == LINK:
            self.links[index.link_ends(line)] = line
        elif kind == COUNTRY and line and line[0] != "#":
            self.countries[columns[0]] = line
        elif kind == CODE:
            if columns[0] not in self.codes:
                taken = [slot for code, slot in self.slots.items() if index.padded(code, 23) == index.padded(columns[0], 23)]
                self.slots[columns[0]] = next(n for n in itertools.count() if n not in taken)
            self.codes[columns[0]] = line

    def keys(self):
        for line in self.rows.values():
            yield index.row_key(line)
            yield from index.keys_beside_row(line)
        for line in self.alternates.values():
            yield index.alternate_key(line)
            yield from index.keys_beside_alternate(line)
        for line in self.links.values():
            yield index.link_key(line)
            yield from index.keys_beside_link(line)
        for line in self.countries.values():
            yield index.country_key(line)
        for code, line in self.codes.items():
            yield index.code_key(line, self.slots[code])

    def tell(self, steps):
        keys = sorted(key.ljust(32, b"\0") for key in self.keys())
        assert len(set(keys)) == len(keys)
        digest = 14695981039346656037
        for byte in b"".join(keys):
            digest = (digest ^ byte) * 1099511628211 % 2 ** 64
        print(f"agrees at {steps}: {len(self.rows)} rows, {len(self.alternates)} alternate names, {len(self.links)} links, "
              f"{len(self.countries)} countries, {len(self.codes)} codes; {self.refused} refused; {len(keys)} keys, digest {digest}")


def main():
    draws, tables = Draws(24), Tables()
    for hundreds in range(1, 31):
        last = COUNTRY, ""
        for _ in range(100):
            last = draws.line(last)
            tables.step(*last)
        tables.tell(hundreds * 100)
    print("3 codes with the same first 23 bytes, the last in slot 2")
    for size in [4076, 4077, 8161, 4076, 65535, 4077, 60]:
        print(f"a row of {size} bytes: {'a chain' if size > 4076 else 'a slot'}")
    print("a row of 65536 bytes: refused by its length")
    print("1024 countries, and the next is refused; one of them again isn't")
    print("a dozen steps and all questions: each call of the pages failed in turn, and the answer was so")
    print("each page in turn zeros, 255s and another page: each call ended, by an answer or by damage")


if __name__ == "__main__":
    sys.exit(main())

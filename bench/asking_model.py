#!/usr/bin/env python3
"""Prints the requests of `gaz_asking` or what it has to print, by the rules alone: `bench/asking_model.py stdin > crates/gaz_asking/stdin`, and so `stdout`.

It makes the same lines at random (crates/gaz_asking/src/lines.rt), keeps the five tables as maps, and answers each request by going over all rows: which pass
all tests, in which order, from which on and how many (docs/PROTOCOL.md), and which is the parent of each (docs/PARENT.md). Names are compared by Python's
unicodedata, populations are Python's numbers, and degrees whole numbers of 10^-12."""
import functools
import sys
import unicodedata

NAMES = ["Évreux", "ÉVREUX", "Evreux", "Straße", "STRASSE", "Strass", "İzmir", "IZMIR", "izmir", "ΣΑΣ", "Σας", "σασ", "Finland", "한국", "한", "Åland", "ΑΙΔ",
         "San", "SAN", "Santa", "San Jé", "san je", "Łódź", "łódź", "Lodz", "Мин", "МИН", "東京", "東", "", " ", "=", "%_*?"]
OTHER_NAMES = ["E\u0301vreux", "\ufb01nland", "\u1112\u1161\u11ab\u1100\u116e\u11a8", "\u212bland", "A\u030aland", "a\u0323\u0307b", "a\u0307\u0323b", "\u1fb3δ",
               "\u01f0ava", "J\u030cava", "a name that is longer than the 22 bytes of a key", "a name that is longer than the 22 bytes of another", "A NAME THAT IS LONGER",
               "éééééééééééé"]
ENDS = ["90", "-90", "-89.75", "0", "-0.000", "0.25", "-0.25", "12.5"]
LONGITUDE_ENDS = ["180", "-180", "179.5", "-179.75", "0", "-0", "0.25", "12.5"]
COUNTRY_CODES = ["A\tPCLI", "A\tPCL", "A\tPCLD", "A\tPCLIX", "A\tPCLS", "A\tPCLF"]
OTHERS = ["P\tPPL", "P\tPPL", "P\tPPL", "P\tPPLC", "P\tPPLX", "S\tHTL", "L\tPCLI", "L\tADM1", "A\tADMD", "A\tPCLH", "\t"]
COUNTRIES = ["XA", "XA", "XA", "XB", "XB", "XC", "XD", "", "XAB", "xa"]
ADMIN1 = ["01", "01", "02", "03", "7", "00", ""]
ADMIN2 = ["001", "001", "002", "a code of thirty bytes in all.1", "a code of thirty bytes in all.2", ""]
ADMIN3 = ["1", "1", "2", ""]
ADMIN4 = ["x", "y", ""]
POPULATIONS = ["", "0", "-5", "1000", "1999", "007", "-1999"]
LANGUAGES = ["", "en", "en", "de", "fr", "EN", "link", "wkdt", "post"]
TYPES = ["ADM", "", "", "", "tourism", "region"]
NAMED = ["XA\t1", "XB\t750", "XC\t6000", "XAB\t", "XE\t750"]
POLITICAL = {code[2:] for code in COUNTRY_CODES}
LEVELS = {"ADM1": 1, "ADM2": 2, "ADM3": 3, "ADM4": 4}
ROWS, ALTERNATES, LINKS, CODES = 5000, 3000, 900, 150


def id_of(n):
    return 4294967295 - (5000 - n) if 4990 < n <= 5000 else n


class Draws:
    def __init__(self, x):
        self.x = x

    def below(self, n):
        self.x = self.x * 16807 % 2147483647
        return self.x % n

    def one_of(self, words):
        return words[self.below(len(words))]

    def name(self):
        word = self.one_of(OTHER_NAMES if self.below(4) == 0 else NAMES)
        return f"{word} {self.below(40)}" if self.below(3) == 0 else word

    def degrees(self, most, ends):
        kind = self.below(4)
        if kind == 0:
            return self.one_of(ends)
        at = self.below(2 * most + 1)
        if kind == 1:
            at -= at % 250
        size = abs(at - most)
        return f"{'-' if at < most else ''}{size // 1000}.{size % 1000:03d}{'000000001' if kind == 2 else ''}"

    def row(self, n):
        names = [self.name(), self.name(), "a" * (4200 if n % 500 == 3 else 1)]
        places = [self.degrees(90_000, ENDS), self.degrees(180_000, LONGITUDE_ENDS)]
        if n <= 9:
            code = self.one_of(COUNTRY_CODES)
        elif n <= 700:
            code = "A\tADM" + ("1" if n <= 60 else "2" if n <= 260 else "3" if n <= 500 else "4")
        else:
            code = self.one_of(OTHERS)
        admins = [self.one_of(COUNTRIES), ""] + [self.one_of(words) for words in (ADMIN1, ADMIN2, ADMIN3, ADMIN4)]
        population = self.one_of(POPULATIONS) if self.below(3) == 0 else str(self.below(2000))
        return "\t".join([str(id_of(n))] + names + places + [code] + admins + [population, "", "", "Etc/UTC", "2024-03-01"])

    def alternate(self, n):
        columns = [str(id_of(n)), str(id_of(1 + self.below(5200))), self.one_of(LANGUAGES), self.name()]
        return "\t".join(columns) + self.one_of(["", "\t1\t\t\t\t\t"])

    def link(self):
        return f"{id_of(1 + self.below(800))}\t{id_of(1 + self.below(5000))}\t{self.one_of(TYPES)}"

    def code(self):
        return f"{self.one_of(COUNTRIES)}.{self.one_of(ADMIN1)}.{self.one_of(ADMIN2)}\t{self.name()}\t{self.name()}\t{1 + self.below(5000)}"


@functools.cache
def size_of(degrees):
    """Degrees in units of 10^-12."""
    whole, _, rest = degrees.lstrip("-").partition(".")
    size = int(whole + rest.ljust(12, "0"))
    return -size if degrees.startswith("-") else size


@functools.cache
def key_of(name):
    return unicodedata.normalize("NFD", unicodedata.normalize("NFD", name).casefold())


class Tables:
    """The rows and admin codes by their keys, names by ids of alternates, links by child and class, and places by countries."""

    def __init__(self):
        self.rows, self.alternates, self.links, self.named, self.codes = {}, {}, {}, {}, {}
        draws = Draws(7)
        for n in range(1, ROWS + 1):
            self.put_row(draws.row(n))
        for n in range(1, ALTERNATES + 1):
            self.put_alternate(draws.alternate(n))
        for _ in range(LINKS):
            self.put_link(draws.link())
        for n in range(4001, 4101):
            self.put_link(f"{n - 1 if n > 4001 else 4010}\t{n}\tADM")
        for line in NAMED:
            country, place = line.split("\t")
            self.named[country] = int(place) if place else 0
        for _ in range(CODES):
            line = draws.code()
            self.codes[line.split("\t")[0]] = line
        for _ in range(1000):
            n = 1 + draws.below(ROWS)
            if draws.below(4) == 0 and not 4000 < n <= 4100:
                self.rows.pop(id_of(n), None)
            else:
                self.put_row(draws.row(n))
        for _ in range(1000):
            n = 1 + draws.below(ALTERNATES)
            if draws.below(3) == 0:
                self.alternates.pop(id_of(n), None)
            else:
                self.put_alternate(draws.alternate(n))
        self.finish()

    def put_row(self, line):
        columns = line.split("\t")
        self.rows[int(columns[0])] = columns

    def put_alternate(self, line):
        columns = line.split("\t")
        self.alternates[int(columns[0])] = columns

    def put_link(self, line):
        parent, child, kind = line.split("\t")
        self.links.setdefault((int(child), kind), set()).add(int(parent))

    def finish(self):
        """What is asked often, once all lines are there."""
        self.names = {id: [(None, key_of(row[1])), (None, key_of(row[2]))] for id, row in self.rows.items()}
        for columns in self.alternates.values():
            self.names.setdefault(int(columns[1]), []).append((columns[2], key_of(columns[3])))
        self.by_code = {}
        for id, row in self.rows.items():
            self.by_code.setdefault((row[6], row[7], row[8]), []).append(id)
        self.parents = {id: self.parent(id) for id in self.rows}

    def pairs(self, ids):
        return sorted(ids, key=lambda id: (-int(self.rows[id][14] or 0), id))

    # what stands above a row

    def linked(self, id, kind):
        return self.links.get((id, kind), set()) & self.rows.keys()

    def divisions(self, row, level):
        path = [row[8]] + row[10 : 10 + level]
        if "" in path or row[10] == "00":
            return []
        return [id for id in self.by_code.get(("A", f"ADM{level}", row[8]), []) if self.rows[id][10 : 10 + level] == row[10 : 10 + level]]

    def candidates(self, id):
        row = self.rows[id]
        is_country = row[6] == "A" and row[7] in POLITICAL
        yield self.linked(id, "ADM")
        first = 0 if is_country else LEVELS[row[7]] - 1 if row[6] == "A" and row[7] in LEVELS else 4
        for level in range(first, 0, -1):
            yield self.divisions(row, level)
        if not is_country and row[8] != "":
            yield {self.named.get(row[8])} & self.rows.keys()
            yield [id for code in POLITICAL for id in self.by_code.get(("A", code, row[8]), [])]
        yield self.linked(id, "")

    def parent(self, id):
        for places in self.candidates(id):
            others = [place for place in places if place != id]
            if others:
                return min(others)
        return None

    def chain(self, id):
        chain = []
        while id in self.rows and id not in chain and len(chain) < 64:
            chain.append(id)
            id = self.parents[id]
        return chain[::-1]

    def children(self, id):
        return self.pairs(child for child, parent in self.parents.items() if parent == id and self.rows[child][6] in ("A", "P"))

    # a search

    def has_name(self, id, asked):
        lang, whole, front = asked.get("searchlang"), asked.get("name_equals"), asked.get("name_startsWith")
        keys = [key for language, key in self.names[id] if (language not in ("link", "wkdt", "post") if lang is None else language == lang)]
        return key_of(whole) in keys if whole else any(key.startswith(key_of(front)) for key in keys)

    def is_in_box(self, row, asked):
        north, south, east, west = (size_of(asked[edge]) for edge in ("north", "south", "east", "west"))
        latitude, longitude = size_of(row[4]), size_of(row[5])
        if not south <= latitude <= north:
            return False
        return west <= longitude <= east if west <= east else longitude >= west or longitude <= east

    def matches(self, id, asked):
        row = self.rows[id]
        columns = {"country": 8, "featureClass": 6, "featureCode": 7, "adminCode1": 10, "adminCode2": 11, "adminCode3": 12}
        if any(name in asked and row[column] != asked[name] for name, column in columns.items()):
            return False
        if "north" in asked and not self.is_in_box(row, asked):
            return False
        return not asked.keys() & {"name_equals", "name_startsWith"} or self.has_name(id, asked)

    def search(self, asked):
        start, most = int(asked.get("startRow", "0")), int(asked.get("maxRows", "100"))
        return self.pairs(id for id in self.rows if self.matches(id, asked))[start : start + most]

    def answer(self, request):
        verb, _, rest = request.partition(" ")
        if verb == "get":
            return "\t".join(self.rows.get(int(rest), ["none"]))
        if verb == "admin":
            return self.codes.get(rest, "none")
        if verb == "hierarchy":
            ids = self.chain(int(rest))
        elif verb == "children":
            id, _, most = rest.partition(" maxRows=")
            ids = self.children(int(id))[: int(most or "200")]
        else:
            ids = self.search(dict(word.split("=", 1) for word in rest.split("\t")) if rest else {})
        return " ".join(map(str, ids)) or "none"


class Requests:
    """Requests at random."""

    def __init__(self):
        self.draws = Draws(500)

    def id(self):
        return id_of(1 + self.draws.below(5003))

    def cased(self, name):
        form = self.draws.one_of(["NFC", "NFD", "NFC", "NFD", ""])
        name = unicodedata.normalize(form, name) if form else name
        return self.draws.one_of([str, str, str.upper, str.lower])(name)

    def name_test(self):
        name = self.cased(self.draws.name())
        if self.draws.below(12) == 0:
            name += self.draws.one_of(["x", "\u0301", " 40", " "])
        if self.draws.below(2) == 0:
            return ["name_equals=" + name] if name else []
        front = name[: 1 + self.draws.below(max(1, len(name)))]
        return ["name_startsWith=" + front] if front else []

    def edges(self, wide):
        south, north = sorted((self.draws.degrees(90_000, ENDS) for _ in range(2)), key=size_of)
        east, west = (self.draws.degrees(180_000, LONGITUDE_ENDS) for _ in range(2))
        kind = self.draws.below(8)
        if kind == 0:
            south, north = self.draws.one_of([("90", "90"), ("-90", "-90"), ("-90", "-89.75"), ("0", "0"), ("0.25", "0.25"), ("-0.25", "0.25")])
        elif kind == 1:
            east, west = self.draws.one_of([("-180", "180"), ("180", "-180"), ("-179.5", "179.5"), ("180", "180"), ("-180", "-180"), ("0", "0"), ("12.499", "12.5")])
        elif kind <= 4 and not wide:
            latitude, longitude = self.draws.below(160) - 80, self.draws.below(340) - 170
            south, north, east, west = latitude - 5, latitude + self.draws.below(6), longitude + self.draws.below(10), longitude - 10
        return [f"north={north}", f"south={south}", f"east={east}", f"west={west}"]

    def columns(self):
        words = {"country": COUNTRIES + ["XZ"], "featureClass": ["A", "P", "P", "S", "", "a"], "featureCode": ["PPL", "PPLC", "ADM1", "ADM4", "PCLI", "", "PPL "],
                 "adminCode1": ADMIN1, "adminCode2": ADMIN2, "adminCode3": ADMIN3}
        return [name + "=" + self.draws.one_of(values) for name, values in words.items() if self.draws.below(5) == 0]

    def cut(self):
        most = "0" if self.draws.below(25) == 0 else self.draws.one_of(["1", "2", "7", "7", "12", "12", "30", "1000", ""])
        start = "5000" if self.draws.below(25) == 0 else self.draws.one_of(["0", "1", "3", "40", "", "", "", "", ""])
        return ["maxRows=" + most] * (most != "") + ["startRow=" + start] * (start != "")

    def search(self):
        kind = self.draws.below(10)
        words = self.name_test() if kind < 6 else []
        if kind < 7 and self.draws.below(3) == 0:
            words += ["searchlang=" + self.draws.one_of(LANGUAGES + ["en-GB"])]
        words += self.edges(kind in (5, 8)) if kind in (5, 6, 7, 8) else []
        words += self.columns() if kind in (4, 8, 9) else []
        words += self.cut() + (["orderby=population"] if self.draws.below(9) == 0 else [])
        if self.draws.below(2) == 0:
            words.reverse()
        return "search " + "\t".join(words) if words else "search"

    def children(self):
        id = self.draws.one_of([1 + self.draws.below(700), 1 + self.draws.below(260), 1 + self.draws.below(9), self.id(), 750])
        return f"children {id}" + self.draws.one_of(["", " maxRows=3", " maxRows=1000"])

    def request(self):
        kind = self.draws.below(20)
        if kind < 13:
            return self.search()
        if kind < 15:
            return self.children()
        if kind < 18:
            return f"hierarchy {self.draws.one_of([self.id(), self.id(), 4001 + self.draws.below(110), 1 + self.draws.below(700)])}"
        if kind < 19:
            return f"get {self.id()}"
        return "admin " + self.draws.one_of([self.draws.code().split("\t")[0], self.draws.one_of(["XA", "XB.", "XA.01. ", "XZ.01.", "XA.01.a code of thirty bytes in all."])])

    def all(self):
        return [self.request() for _ in range(500)]


def main():
    requests = Requests().all()
    if sys.argv[1:] == ["stdin"]:
        lines = requests
    elif sys.argv[1:] == ["stdout"]:
        lines = map(Tables().answer, requests)
    else:
        sys.exit(__doc__)
    sys.stdout.reconfigure(encoding="utf-8", newline="\n")
    for line in lines:
        print(line)


if __name__ == "__main__":
    main()

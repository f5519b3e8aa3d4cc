#!/usr/bin/env python3
"""Reads the five files of a mirror, and makes them, by docs/FORMAT.md alone and without the program.

mirror.py read FOLDER           looks at every page and every key, prints what the root page says and the lines of the five tables, and
                                ends with 1 and the first thing that isn't as the format says
mirror.py write FOLDER SEED DATE ROWS ALTERNATES LINKS COUNTRIES CODES
                                makes a mirror of the lines of these five files: its pages in an order of the seed's, with as many
                                entries and records to a page as the seed says, and with free pages between"""
import os
import random
import sys
from datetime import date, timedelta

import index_keys as index

PAGE = 4096
LEAF, INNER, RECORDS, OVERFLOW, FREE = 1, 2, 3, 4, 5
LEFT, RIGHT = 3, 4
NAMES = {LEFT: "left", RIGHT: "right"}
CHAIN = 65535
TABLES = ["rows", "alternates", "links", "countries", "codes"]
# Days from 0000-01-01 to 0001-01-01, which Python begins with: the year 0 is a leap year.
YEAR_0 = 366


def need(test, what):
    if not test:
        sys.exit(what)


def number(page, at, size=4):
    return int.from_bytes(page[at:at + size], "big")


class Root:
    """The root page, field by field."""

    def __init__(self, page):
        need(len(page) >= PAGE, "no root page")
        page = page[:PAGE]
        need(page[0] == 6 and page[1] == 1, "no root page of version 1")
        need(page[4] in NAMES and 1 <= page[5] <= 6, "area or height")
        need(not any(page[2:4] + page[6:8] + page[48:]), "a byte of the root that isn't zero")
        self.side, self.height = page[4], page[5]
        self.top, self.fresh, self.free, self.day = [number(page, at) for at in [8, 12, 16, 20]]
        self.counts = [number(page, at) for at in range(24, 44, 4)]
        self.heap = number(page, 44)
        need(self.day <= 3652424, "date")


class Reader:
    def __init__(self, folder):
        with open(os.path.join(folder, "mirror.root"), "rb") as file:
            self.root = Root(file.read())
        with open(os.path.join(folder, f"mirror.{NAMES[self.root.side]}"), "rb") as file:
            self.area = file.read()
        self.seen = {}
        self.entries = []

    def page(self, n, kind, use):
        """The page, which has this kind and isn't of another use."""
        need(0 < n < self.root.fresh, f"{use}: no page {n}")
        need(n not in self.seen, f"page {n} is of {self.seen.get(n)} and {use}")
        self.seen[n] = use
        page = self.area[n * PAGE:(n + 1) * PAGE]
        need(len(page) == PAGE, f"page {n} ends early")
        need(page[0] == kind and page[1] == 0 and number(page, 4) == n and not any(page[14:16]), f"the header of page {n}")
        return page

    def walk(self, n, level, low, high):
        """The entries below a page; its keys are from `low` to below `high`."""
        page = self.page(n, INNER if level else LEAF, "the tree")
        size, least, most = (36, 56, 113) if level else (40, 51, 102)
        if level + 1 == self.root.height:
            least = 2 if level else 0
            self.top_kind, self.top_count = ("inner page" if level else "leaf"), number(page, 2, 2)
        count = number(page, 2, 2)
        need(least <= count <= most, f"page {n} has {count} entries")
        need(not any(page[8:14] + page[16 + count * size:]), f"a byte of page {n} that isn't zero")
        found = [page[at:at + size] for at in range(16, 16 + count * size, size)]
        keys = [entry[:32] for entry in found]
        need(all(one < next for one, next in zip(keys, keys[1:])), f"keys of page {n}")
        if not level:
            need(all(low <= key and (high is None or key < high) for key in keys), f"a key of page {n} is out of its range")
            self.entries += [(entry[:32], number(entry, 32, 8)) for entry in found]
            return
        need(keys[0] == bytes(32), f"the first key of page {n}")
        bounds = [low] + keys[1:] + [high]
        need(all(low <= key and (high is None or key < high) for key in keys[1:]), f"a key of page {n} is out of its range")
        for entry, lower, upper in zip(found, bounds, bounds[1:]):
            self.walk(number(entry, 32), level - 1, lower, upper)

    def slots(self, n):
        """The records of a record page, by their slots."""
        page = self.page(n, RECORDS, "records")
        count, mark = number(page, 2, 2), number(page, 12, 2)
        need(16 + 4 * count <= mark <= PAGE and not any(page[8:12]), f"the slots of page {n}")
        found = {}
        for slot in range(count):
            begin, size = number(page, 16 + 4 * slot, 2), number(page, 18 + 4 * slot, 2)
            if begin:
                need(mark <= begin and begin + size <= PAGE, f"record {slot} of page {n}")
                found[slot] = begin, begin + size
        ranges = sorted(found.values())
        need(all(one[1] <= next[0] for one, next in zip(ranges, ranges[1:])), f"records of page {n} overlap")
        return {slot: page[begin:end] for slot, (begin, end) in found.items()}

    def chain(self, n):
        """The record of a chain of overflow pages."""
        pieces = []
        while n:
            page = self.page(n, OVERFLOW, "an overflow chain")
            count = number(page, 2, 2)
            need(1 <= count <= 4080 and not any(page[12:14]), f"the header of page {n}")
            need(not pieces or len(pieces[-1]) == 4080, f"a page before {n} isn't full")
            pieces.append(page[16:16 + count])
            n = number(page, 8)
        need(len(pieces) <= 17 and 4077 <= sum(map(len, pieces)) <= 65535, "an overflow chain's length")
        return b"".join(pieces)

    def free_pages(self):
        n = self.root.free
        while n:
            n = number(self.page(n, FREE, "the free chain"), 8)

    def records(self, places):
        """The records at these places, which are all that the record pages hold."""
        by_page = {place >> 16: self.slots(place >> 16) for place in sorted(places, key=lambda place: place >> 16)
                   if place & 65535 != CHAIN and place >> 16 not in self.seen}
        if self.root.heap and self.root.heap not in by_page:
            by_page[self.root.heap] = self.slots(self.root.heap)
        used = {page << 16 | slot for page, slots in by_page.items() for slot in slots}
        need(used == {place for place in places if place & 65535 != CHAIN}, "a record that no key names, or a key without its record")
        return {place: self.chain(place >> 16) if place & 65535 == CHAIN else by_page[place >> 16][place & 65535] for place in places}

    def tables(self):
        """The lines of the five tables, in the order of their keys."""
        self.walk(self.root.top, self.root.height - 1, bytes(32), None)
        named = [(key, place) for key, place in self.entries if key[0] in [1, 2, 3, 5, 6]]
        need(all(place == 0 for key, place in self.entries if key[0] not in [1, 2, 3, 5, 6]), "a value that isn't 0")
        need(len({place for _, place in named}) == len(named), "two keys with one place")
        records = self.records({place for _, place in named})
        self.free_pages()
        need(len(self.seen) == self.root.fresh - 1, "a page of no use")
        lines = {tag: [(key, records[place].decode()) for key, place in named if key[0] == tag] for tag in [1, 2, 3, 5, 6]}
        self.check_keys(lines)
        tables = [[line for _, line in lines[tag]] for tag in [1, 2, 3, 5, 6]]
        need([len(table) for table in tables] == self.root.counts, "the numbers of lines")
        return tables

    def check_keys(self, lines):
        """Each line stands under its own key, and the other keys are those of the lines."""
        own = {1: index.row_key, 2: index.alternate_key, 3: index.link_key, 5: index.country_key}
        for tag, of in own.items():
            need(all(key == of(line).ljust(32, b"\0") for key, line in lines[tag]), f"a line under another key of tag {tag}")
        need(all(key == index.code_key(line, number(key, 28)) for key, line in lines[6]), "a code under another key")
        need(len({line.split("\t")[0] for _, line in lines[6]}) == len(lines[6]), "a code twice")
        beside = {1: index.keys_beside_row, 2: index.keys_beside_alternate, 3: index.keys_beside_link}
        wanted = {key.ljust(32, b"\0") for tag, of in beside.items() for _, line in lines[tag] for key in of(line)}
        need(wanted == {key for key, _ in self.entries if key[0] in [4, 7, 8, 9, 10]}, "the keys beside the lines")


def read(folder):
    reader = Reader(folder)
    tables, root = reader.tables(), reader.root
    print(f"{NAMES[root.side]}, {date.fromordinal(root.day - YEAR_0 + 1) if root.day >= YEAR_0 else root.day}, height {root.height}, "
          f"{reader.top_kind} of {reader.top_count}, {len(reader.entries)} keys")
    for name, lines in zip(TABLES, tables):
        print(f"{len(lines)} {name}", *lines, sep="\n")


class Writer:
    """Pages of one area, at places of the seed's."""

    def __init__(self, seed, most):
        self.draws = random.Random(seed)
        self.left = list(range(1, most + 1))
        self.draws.shuffle(self.left)
        self.pages, self.fresh = {}, most + 1

    def put(self, kind, count, link, mark, rest):
        n = self.left.pop()
        self.put_at(n, kind, count, link, mark, rest)
        return n

    def put_at(self, n, kind, count, link, mark, rest):
        header = bytes([kind, 0]) + count.to_bytes(2, "big") + index.four(n) + index.four(link) + mark.to_bytes(2, "big") + bytes(2)
        self.pages[n] = (header + rest).ljust(PAGE, b"\0")

    def chain(self, record):
        pieces = [record[at:at + 4080] for at in range(0, len(record), 4080)]
        link = 0
        for piece in reversed(pieces):
            link = self.put(OVERFLOW, len(piece), link, 0, piece)
        return link << 16 | CHAIN

    def record_page(self, records):
        """Record pages have free slots between the used ones where there is room, and any bytes before the records."""
        slots, bodies, end = [], b"", PAGE
        room = PAGE - 16 - sum(len(record) + 4 for record in records)
        for record in records:
            if room >= 4 and self.draws.random() < 0.3:
                slots.append((0, self.draws.randrange(65536)))
                room -= 4
            slots.append((end - len(record), len(record)))
            end -= len(record)
            bodies = record + bodies
        table = b"".join(begin.to_bytes(2, "big") + size.to_bytes(2, "big") for begin, size in slots)
        n = self.put(RECORDS, len(slots), 0, end, table.ljust(end - 16, b"\x5a") + bodies)
        return [n << 16 | slot for slot, (begin, _) in enumerate(slots) if begin]

    def records(self, lines):
        """The places of these lines."""
        places, held, room = {}, [], 0
        order = list(range(len(lines)))
        self.draws.shuffle(order)
        for k in order:
            record = lines[k].encode()
            if len(record) > 4076:
                places[k] = self.chain(record)
                continue
            if room < len(record) + 4 or self.draws.random() < 0.02:
                places.update(zip([at for at, _ in held], self.record_page([record for _, record in held])) if held else {})
                held, room = [], 4080
            held.append((k, record))
            room -= len(record) + 4
        places.update(zip([at for at, _ in held], self.record_page([record for _, record in held])) if held else {})
        return [places[k] for k in range(len(lines))]

    def level(self, kind, entries, least, most):
        """The pages of one level, and the first key below each; each has from `least` to `most` entries."""
        made = []
        while entries:
            size = self.draws.randint(least, most)
            if len(entries) <= most:
                size = len(entries)
            elif len(entries) - size < least:
                size = len(entries) - least
            now, entries = entries[:size], entries[size:]
            first = now[0][0]
            if kind == INNER:
                now = [(bytes(32), now[0][1])] + now[1:]
            made.append((first, index.four(self.put(kind, len(now), 0, 0, b"".join(key + value for key, value in now)))))
        return made

    def tree(self, entries):
        """The topmost page and the height."""
        height, made = 1, self.level(LEAF, sorted(entries), 51, 102) or [(b"", index.four(self.put(LEAF, 0, 0, 0, b"")))]
        while len(made) > 1:
            height, made = height + 1, self.level(INNER, made, 56, 113)
        return int.from_bytes(made[0][1], "big"), height

    def free_chain(self):
        link = 0
        for n in self.left:
            self.put_at(n, FREE, 0, link, 0, bytes([238]) * (PAGE - 16))
            link = n
        return link


def lines_of(file):
    with open(file, "rb") as lines:
        return lines.read().decode().split("\n")[:-1]


def entries_of(tables, places):
    """All entries of the index: keys with their values."""
    rows, alternates, links, countries, codes = [zip(lines, at) for lines, at in zip(tables, places)]
    taken = {}
    for of, beside, lines in [(index.row_key, index.keys_beside_row, rows), (index.alternate_key, index.keys_beside_alternate, alternates),
                              (index.link_key, index.keys_beside_link, links), (index.country_key, lambda line: [], countries)]:
        for line, place in lines:
            yield of(line), place
            yield from ((key, 0) for key in beside(line))
    for line, place in codes:
        slot = taken.setdefault(line.split("\t")[0].encode()[:23], 0)
        taken[line.split("\t")[0].encode()[:23]] = slot + 3
        yield index.code_key(line, slot), place


def write(folder, seed, day, *files):
    tables = [lines_of(file) for file in files]
    size = sum(len(line.encode()) + 400 for lines in tables for line in lines)
    writer = Writer(seed, 40 + size // 1200)
    places = [writer.records(lines) for lines in tables]
    entries = [(key.ljust(32, b"\0"), value.to_bytes(8, "big")) for key, value in entries_of(tables, places)]
    top, height = writer.tree(entries)
    free, side = writer.free_chain(), LEFT + int(seed) % 2
    fields = [top, writer.fresh, free, (date.fromisoformat(day) - date(1, 1, 1)) // timedelta(1) + YEAR_0, *map(len, tables), 0]
    root = bytes([6, 1, 0, 0, side, height, 0, 0]) + b"".join(map(index.four, fields))
    with open(os.path.join(folder, "mirror.root"), "wb") as file:
        file.write(root.ljust(PAGE, b"\0"))
    with open(os.path.join(folder, f"mirror.{NAMES[side]}"), "wb") as file:
        file.write(b"\xee" * PAGE + b"".join(writer.pages[n] for n in range(1, writer.fresh)))


if __name__ == "__main__":
    {"read": read, "write": write}[sys.argv[1]](*sys.argv[2:])

"""The keys of the index, made of the lines of the five tables by docs/FORMAT.md alone, with names by Python's unicodedata."""
import unicodedata as u

COUNTRY_ROWS = ["PCL", "PCLD", "PCLF", "PCLI", "PCLIX", "PCLS"]
DIVISIONS = {"ADM1": 1, "ADM2": 2, "ADM3": 3, "ADM4": 4}


def four(n):
    return int(n).to_bytes(4, "big")


def padded(text, size):
    return text.encode()[:size].ljust(size, b"\0")


def folded(name):
    return padded(u.normalize("NFD", u.normalize("NFD", name).casefold()), 22)


def size_of(degrees):
    """A coordinate in units of 10^-12 degree."""
    whole, _, rest = degrees.lstrip("-").partition(".")
    size = int(whole) * 10 ** 12 + int(rest.ljust(12, "0") or 0)
    return -size if degrees.startswith("-") else size


def path(columns, level):
    return "".join(columns[n] + "\0" for n in [8, 10, 11, 12, 13][:level + 1])


def level_of(columns):
    """0 for a country row, 1 to 4 for a division, and none of another row."""
    if columns[6] != "A":
        return None
    return 0 if columns[7] in COUNTRY_ROWS else DIVISIONS.get(columns[7])


def row_key(line):
    return b"\1" + four(line.split("\t")[0])


def alternate_key(line):
    return b"\2" + four(line.split("\t")[0])


def link_ends(line):
    """The child, the number of the type's class, and the parent."""
    columns = line.split("\t")
    kind = columns[2] if len(columns) > 2 else ""
    return int(columns[1]), {"ADM": 0, "": 1}.get(kind, 2), int(columns[0])


def link_key(line):
    child, kind, parent = link_ends(line)
    return b"\3" + four(child) + bytes([kind]) + four(parent)


def country_key(line):
    return b"\5" + padded(line.split("\t")[0], 4)


def code_key(line, slot):
    return b"\6" + padded(line.split("\t")[0], 23) + four(0) + four(slot)


def keys_beside_row(line):
    """The keys of a row but for the one by its id."""
    columns = line.split("\t")
    id = four(columns[0])
    yield b"\7" + folded(columns[1]) + b"\0" + id + four(0)
    yield b"\7" + folded(columns[2]) + b"\1" + id + four(0)
    band = (size_of(columns[4]) + 90 * 10 ** 12) // (25 * 10 ** 10)
    yield b"\10" + band.to_bytes(2, "big") + (size_of(columns[5]) + 180 * 10 ** 12).to_bytes(8, "big") + id
    level = level_of(columns)
    if level is not None:
        yield b"\11" + bytes([level]) + padded(path(columns, level), 26) + id
    yield b"\12" + padded(path(columns, 4), 27) + id


def keys_beside_alternate(line):
    columns = line.split("\t")
    yield b"\7" + folded(columns[3]) + b"\2" + four(columns[1]) + four(columns[0])


def keys_beside_link(line):
    child, kind, parent = link_ends(line)
    yield b"\4" + four(parent) + bytes([kind]) + four(child)

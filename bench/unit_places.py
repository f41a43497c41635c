#!/usr/bin/env python3
"""A second reader of unit files, written from docs/formats.md alone and apart from the product: it says where a file is damaged.

Reads the sample of crates/unit_places, and prints what that program must write: for each length of a prefix and for each byte
changed to the next value, the one before and the one with the other top bit, the place of damage, or a dash where the bytes
are a unit file. `unit_places.py > crates/unit_places/stdout` makes the expected output."""
import pathlib

HOSTS = ["ShortInt", "Byte", "Integer", "Word", "LongInt", "Char", "Boolean", "Enumeration"]
BOUNDS = {"ShortInt": (-128, 127), "Byte": (0, 255), "Integer": (-32768, 32767), "Word": (0, 65535),
          "LongInt": (-2**31, 2**31 - 1), "Char": (0, 255), "Boolean": (0, 1), "Enumeration": (0, 255)}
WIDTHS = [("ShortInt", 1), ("Byte", 1), ("Integer", 2), ("Word", 2), ("LongInt", 4)]
LIMIT = 65520
FILLS = [4, 2, 2, 2, 2, 4]


class Damaged(Exception):
    pass


class File:
    """A file and the place up to which it is read. `last` is the place of the part that was read last."""

    def __init__(self, data):
        self.data, self.at, self.last = data, 0, 0

    def must(self, holds):
        if not holds:
            raise Damaged(self.last)

    def number(self, size):
        if self.at + size > len(self.data):
            raise Damaged(len(self.data))
        self.last = self.at
        self.at += size
        return int.from_bytes(self.data[self.last:self.at], "little")

    def byte(self):
        return self.number(1)

    def long(self):
        return self.number(4)

    def signed(self):
        number = self.long()
        return number - 2**32 if number >= 2**31 else number

    def truth(self):
        truth = self.byte()
        self.must(truth <= 1)
        return truth == 1

    def below(self, bound):
        number = self.byte()
        self.must(number < bound)
        return number

    def name(self):
        size = self.byte()
        self.must(1 <= size <= 63)
        letters = ""
        for k in range(size):
            letter = chr(self.byte())
            self.must("A" <= letter <= "Z" or letter == "_" or k > 0 and "0" <= letter <= "9")
            letters += letter
        return letters

    def option(self):
        number = self.long()
        return None if number == 0 else number - 1

    def some_bytes(self, count):
        return [self.byte() for _ in range(count)]


def width(host, low, high):
    if host in ("Char", "Boolean", "Enumeration"):
        return 1
    for other, size in WIDTHS:
        if BOUNDS[other][0] <= low and high <= BOUNDS[other][1]:
            return size


class Types:
    """The types of one list, as they are read. Each is its construct, its size, and what is asked of it as a part."""

    def __init__(self, file):
        self.file, self.rows, self.origins = file, [], []
        self.count = file.long()
        for _ in range(self.count):
            self.entry()

    def id(self, bound):
        number = self.file.long()
        self.file.must(number < bound)
        return number

    def fields(self):
        size = 0
        for _ in range(self.file.long()):
            self.file.name()
            size += self.rows[self.id(len(self.rows))]["size"]
        return size

    def header(self):
        self.file.below(4)
        for _ in range(self.file.long()):
            self.file.name()
            self.file.truth()
            self.id(self.count)
        result = self.file.option()
        self.file.must(result is None or result < self.count)

    def part(self, test):
        number = self.file.long()
        self.file.must(number < len(self.rows) and test(self.rows[number]))
        return self.rows[number]

    def entry(self):
        file = self.file
        origin = file.name()
        if origin not in self.origins:
            self.origins.append(origin)
        place = self.origins.index(origin)
        file.long()
        kind = file.below(8)
        row = {"kind": kind}
        if kind == 0:
            host = HOSTS[file.below(8)]
            least, greatest = BOUNDS[host]
            low = file.signed()
            file.must(least <= low <= greatest)
            high = file.signed()
            file.must(low <= high <= greatest)
            row.update(low=low, high=high, size=width(host, low, high))
        elif kind == 1:
            most = file.byte()
            file.must(most >= 1)
            row["size"] = most + 1
        elif kind == 2:
            base = self.part(lambda it: it["kind"] == 0 and 0 <= it["low"] and it["high"] <= 255)
            row["size"] = base["high"] // 8 - base["low"] // 8 + 1
        elif kind == 3:
            index = self.part(lambda it: it["kind"] == 0)
            element = self.rows[self.id(len(self.rows))]
            row["size"] = (index["high"] - index["low"] + 1) * element["size"]
        elif kind == 4:
            row["size"] = self.fields()
        elif kind == 5:
            self.id(self.count)
            row["size"] = 4
        elif kind == 6:
            parent = file.option()
            file.must(parent is None or parent < len(self.rows) and self.rows[parent]["kind"] == 6)
            above = {"size": 0, "class": False} if parent is None else self.rows[parent]
            dynamic = file.truth()
            own = self.fields()
            for _ in range(file.long()):
                file.name()
                self.header()
                file.truth()
                unit = file.long()
                file.must(unit == place)
                file.long()
            row["class"] = above["class"] or dynamic
            row["size"] = above["size"] + own + (2 if dynamic and not above["class"] else 0)
        else:
            self.header()
            row["size"] = 4
        file.must(row["size"] <= LIMIT)
        self.rows.append(row)


def value(file):
    kind = file.below(4)
    if kind == 0:
        file.signed()
    elif kind == 1:
        file.some_bytes(file.long())
    elif kind == 3:
        before = -1
        for _ in range(file.long()):
            element = file.byte()
            file.must(element > before)
            before = element


def interface(file):
    """How many types and items there are, and the numbers of the variables and of the routines."""
    file.name()
    types = Types(file)
    variables, routines = [], []
    items = file.long()
    for _ in range(items):
        kind = file.below(4)
        file.name()
        if kind == 3:
            types.header()
            routines.append(file.long())
            continue
        types.id(types.count)
        if kind == 0:
            value(file)
        elif kind == 2:
            variables.append(file.long())
    return types.count, items, variables, routines


def references(file, size):
    free = 0
    for _ in range(file.long()):
        offset = file.long()
        file.must(offset >= free)
        free = offset + FILLS[file.below(6)]
        file.must(free <= size)
        file.name()
        file.long()


def data(file, asked):
    count = file.long()
    file.must(all(number < count for number in asked))
    for _ in range(count):
        size = file.long()
        said = file.long()
        file.must(said in (0, size))
        file.some_bytes(said)
        references(file, said)
    return count


def code(file, asked):
    count = file.long()
    file.must(all(number < count for number in asked))
    together = 0
    for _ in range(count):
        file.name()
        file.truth()
        file.long()
        size = file.long()
        together += size
        file.must(size >= 6 and together <= LIMIT)
        file.some_bytes(size)
        references(file, size)
    return count


def unit(file):
    """What the file holds, in words."""
    for letter in b"TPW1":
        file.must(file.byte() == letter)
    file.must(file.number(2) in (1, 2))
    program = file.truth()
    file.truth()
    types, items, variables, routines = interface(file)
    overlaid = file.long()
    for _ in range(overlaid):
        file.name()
    stack = file.long()
    file.must(1024 <= stack <= LIMIT)
    heap = file.long()
    file.must(heap <= 196608)
    imports = file.long()
    for _ in range(imports):
        interface(file)
    globals_ = data(file, variables)
    tables = data(file, [])
    count = code(file, routines)
    start = file.option()
    file.must(start < count if start is not None else not program)
    if file.at < len(file.data):
        raise Damaged(file.at)
    return (f"{types} types, {items} items, {overlaid} overlaid, {imports} imports, stack {stack}, heap {heap}\n"
            f"{globals_} globals, {tables} tables, {count} routines")


def place(data):
    try:
        unit(File(data))
    except Damaged as damaged:
        return str(damaged.args[0])
    return "-"


def changed(sample, at, byte):
    return sample[:at] + bytes([byte % 256]) + sample[at + 1:]


def main():
    text = (pathlib.Path(__file__).parent.parent / "crates/unit_places/data/sample.hex").read_text()
    sample = bytes.fromhex(" ".join(line.split(";")[0] for line in text.splitlines()))
    for at, byte in enumerate(sample):
        places = [place(changed(sample, at, it)) for it in (byte + 1, byte - 1, byte ^ 0x80)]
        print(f"{at}: {place(sample[:at])} {' '.join(places)}")
    print(f"{len(sample)}: {place(sample)} {place(sample + bytes([0]))} {place(sample + bytes([255]))}")
    print(unit(File(sample)))
    print("written again: true")


main()

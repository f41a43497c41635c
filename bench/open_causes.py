#!/usr/bin/env python3
"""A second reader of executables and overlay files, written from docs/formats.md alone and apart from the product: it says why a
program is not opened.

Reads the two files of crates/open_causes, and prints what that program must write: for each length of a prefix and for each byte
changed to the next value, the one before and the one with the other top bit, first of the executable and then of the overlay
file, the first rule that fails, or a dash where the program is opened. `open_causes.py > crates/open_causes/stdout` makes the
expected output."""
import pathlib

BUFFER = 2


class Refused(Exception):
    pass


def word(data, at):
    return data[at] + 256 * data[at + 1] if at + 1 < len(data) else 0


def paragraphs(size):
    return (size + 15) // 16


def must(holds, cause):
    if not holds:
        raise Refused(cause)


class Executable:
    """The image, its stub segments, and how many paragraphs of memory the program takes. Segment 0070h is where it is loaded."""

    def __init__(self, data):
        must(len(data) >= 0x1C, "Short")
        last, pages, count, header = (word(data, at) for at in (2, 4, 6, 8))
        place = word(data, 0x18)
        size = 512 * (pages - 1) + (last or 512) if pages else 0
        must(size <= len(data), "Short")
        must(data[:2] == b"MZ", "NotMz")
        must(last <= 511 and pages > 0 and 16 * header <= size and place + 4 * count <= size, "BadPages")
        self.image = data[16 * header:size]
        for number in range(count):
            offset, segment = word(data, place + 4 * number), word(data, place + 4 * number + 2)
            must(16 * segment + offset + 2 <= len(self.image), f"BadRelocation {number}")
        stubs = word(data, 0x20)
        end = 0x36 + 2 * stubs
        must(data[0x1C:0x20] in (b"TPX1", b"TPX2") and stubs <= 256 and end <= 16 * header and end <= place, "NoBlock")
        self.stubs = [word(data, 0x36 + 2 * number) for number in range(stubs)]
        self.paragraphs = 0x70 + paragraphs(len(self.image)) + word(data, 0x0A)


class OverlayFile:
    """The place, the size and the number of fixups of each overlay."""

    def __init__(self, data):
        self.data, self.at = data, 0
        for letter in b"TOV1":
            self.number(1, lambda it: it == letter)
        self.number(2, lambda version: version == 1)
        count = self.number(2, lambda count: 1 <= count <= 256)
        self.overlays = [self.overlay() for _ in range(count)]
        must(self.at == len(data), f"Damaged {self.at}")

    def number(self, size, holds=lambda it: True):
        must(self.at + size <= len(self.data), f"Damaged {len(self.data)}")
        number = int.from_bytes(self.data[self.at:self.at + size], "little")
        must(holds(number), f"Damaged {self.at}")
        self.at += size
        return number

    def overlay(self):
        length = self.number(1, lambda length: 1 <= length <= 63)
        for k in range(length):
            self.number(1, lambda it: chr(it) in "ABCDEFGHIJKLMNOPQRSTUVWXYZ_" or k > 0 and chr(it) in "0123456789")
        size = self.number(2, lambda size: 1 <= size <= 65520)
        fixups = self.number(2)
        place = self.at
        for _ in range(size):
            self.number(1)
        least = 0
        for _ in range(fixups):
            least = 2 + self.number(2, lambda fixup: least <= fixup <= size - 2)
        return place, size, fixups


def stub_of(image, segment):
    """What a stub says of its overlay, where it is a stub of an overlay that is out."""
    stub = image[16 * segment:]
    if len(stub) < 32:
        return None
    entries = word(stub, 12)
    size = 32 + 5 * entries
    if size > 65536 or len(stub) < size or stub[:2] != b"\xCD\x3F" or word(stub, 2) or any(stub[14:32]):
        return None
    for at in range(32, size, 5):
        if stub[at:at + 2] != b"\xCD\x3F" or stub[at + 4]:
            return None
    return word(stub, 4) + 65536 * word(stub, 6), word(stub, 8), word(stub, 10)


def answer(executable, overlays):
    try:
        program = Executable(executable)
        known = OverlayFile(overlays).overlays if program.stubs else []
        for number in range(max(len(program.stubs), len(known))):
            there = number < len(program.stubs) and number < len(known)
            must(there and stub_of(program.image, program.stubs[number]) == known[number], f"Mismatch {number}")
        need = max([paragraphs(size) for _, size, _ in known], default=0)
        must(need <= BUFFER, f"Buffer {need} {BUFFER}")
        taken = program.paragraphs + BUFFER
        must(taken <= 0xA000, f"Memory {taken}")
        return "-"
    except Refused as refused:
        return refused.args[0]


def changed(data, at, byte):
    return data[:at] + bytes([byte % 256]) + data[at + 1:]


def table(name, data, opened):
    print(name)
    for at, byte in enumerate(data):
        tried = [data[:at]] + [changed(data, at, it) for it in (byte + 1, byte - 1, byte ^ 0x80)]
        print(f"{at}: {', '.join(opened(it) for it in tried)}")
    print(f"{len(data)}: {opened(data)}, {opened(data + bytes([0]))}")


def main():
    folder = pathlib.Path(__file__).parent.parent / "crates/open_causes/data"
    executable, overlays = ((folder / name).read_bytes() for name in ("calls.exe", "calls.ovr"))
    table("calls.exe", executable, lambda it: answer(it, overlays))
    table("calls.ovr", overlays, lambda it: answer(executable, it))


main()

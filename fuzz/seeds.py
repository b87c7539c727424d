#!/usr/bin/env python3
"""seeds.py FOLDER: writes the inputs of crates/plan_vectors/stdin into a folder, a file each, sheets that nest deeply, and sheets with
long lengths."""
import pathlib
import struct
import sys


def stored():
    """The stored cases' inputs."""
    data = (pathlib.Path(__file__).resolve().parent.parent / 'crates/plan_vectors/stdin').read_bytes()
    at = 0
    while at < len(data):
        size, text = struct.unpack_from('<II', data, at)
        yield data[at + 8:at + 8 + size]
        at += 8 + size + text


# ---- records, by docs/FORMATS.md

BOX = struct.pack('<4d', 0, 0, 1000, 1000)


def record(kind, body):
    return struct.pack('<IH', len(body) + 6, kind) + body


def reference(kind, number):
    return record(4, struct.pack('<4HI9d', 1, 1, 2, kind, number, 0, 0, 0, 0, 0, 0, 1, 1, 0) + BOX)


def cell(*references):
    """A cell with text 0 and references."""
    numbers = struct.pack('<%dI' % (1 + len(references)), 0, *references)
    return record(5, struct.pack('<HQ', 1, 1) + BOX + struct.pack('<4H', 0, 1, 0, len(references)) + numbers)


TEXT = record(2, struct.pack('<HH2d', 1, 0, 10, 20))


def query(depth):
    return record(20, struct.pack('<II5d', 0, depth, 0, 0, 1000, 1000, 1))


# ---- sheets that nest deeply


def nest(depth, cells, inner, last):
    """A query, and so many cells, each in the one before. The last has a chain of inner references to text 0 and, unless `last` is
    None, a reference to that cell."""
    sheet = query(depth) + TEXT
    for number in range(cells - 1):
        sheet += reference(5, number + 1) + cell(number)
    ends = []
    for number in range(inner):
        sheet += reference(4, cells - 2 + number) if number else reference(2, 0)
        ends = [cells - 1 + number]
    if last is not None:
        sheet += reference(5, last)
        ends.append(cells - 1 + inner)
    return sheet + cell(*ends)


def nests():
    """Cells and inner references whose last text a query just lists, and just boxes; and circles of cells."""
    for depth in (32, 33, 40, 47, 48, 49):
        for cells in (1, 2, 16, 30, depth):
            yield nest(depth, cells, depth - cells, None)
            yield nest(depth, cells, depth - cells + 1, None)
        for circle in (1, 2, 20):
            yield nest(depth, circle, 1, 0)
            yield nest(depth, circle + 1, 1, 1)


# ---- sheets with long lengths


def long_lengths():
    """In the first, a middle and the last of three records a length past the end, one that leads to 0 in 32 bits, and one that is right
    in its low 24 bits."""
    records = [TEXT, reference(2, 0), cell(0)]
    for place, long in enumerate(records):
        at = len(b''.join(records[:place]))
        for length in (0xFFFFFFFF, 0xFFFFFFFE, 0x80000000, 0x01000001, -at % 2**32, 0x01000000 + len(long)):
            changed = struct.pack('<I', length) + long[4:]
            yield query(2) + b''.join([*records[:place], changed, *records[place + 1:]])


def main(folder):
    folder.mkdir(parents=True, exist_ok=True)
    seeds = [*stored(), *nests(), *long_lengths()]
    for number, seed in enumerate(seeds):
        (folder / f'{number:04}').write_bytes(seed)
    print(f'{len(seeds)} seeds in {folder}')


main(pathlib.Path(sys.argv[1]))

#!/usr/bin/env python3
"""sheet-cases.py: writes the sheets that crates/sheet_vectors compares.

    tools/sheet-cases.py            write what crates/sheet_vectors reads and what it must print
    tools/sheet-cases.py --check    fail where the files are not what this script writes
    tools/sheet-cases.py --list     print every case: number, offset, bytes, label, and its look-up

Every case states the number and the offset that document 01, "Before a plan: the questions", gives
it. Some also state a look-up without a finder: a kind, a number and the offset of the record that
is found, or NOTHING. It is answered for refused sheets too, record by record from the start, up to
a length below 6 or past the end. All are written down here case by case, by hand; nothing in this
script validates a sheet or walks one.

The file: for each case a head of 84 bytes, which is the expected number, the expected offset, the
lengths of three parts with a repeat count (prefix, block, repeats, suffix) and the look-up's kind
(0 where there is none), number and expected offset (nine numbers of 4 bytes, little-endian) and a
label of 48 bytes padded with spaces; then the parts. The sheet is the prefix, the block as often as
it is repeated, and the suffix.
"""

import collections
import os
import struct
import sys

# ---- records, by the table of document 01; every field can be given, and the length too

INFINITY = 0x7FF0000000000000
NEGATIVE = 0xFFF0000000000000
NAN = 0x7FF8000000000000
MINUS_ZERO = 0x8000000000000000


def bits(value):
    """The pattern of a float; an int is a pattern already."""
    return value if isinstance(value, int) else struct.unpack("<Q", struct.pack("<d", value))[0]


def floats(values):
    return b"".join(struct.pack("<Q", bits(value)) for value in values)


def record(kind, body, length=None):
    return struct.pack("<IH", len(body) + 6 if length is None else length, kind) + body


def batch(box=(0.0, 0.0, 1.0, 1.0), layer=1, data_type=0, elements=1, **head):
    return record(1, struct.pack("<HHI", layer, data_type, elements) + floats(box), **head)


def text(origin=(10.0, 20.0), value=b"", layer=1, data_type=0, **head):
    return record(2, struct.pack("<HH", layer, data_type) + floats(origin) + value, **head)


def node(points=((1.0, 2.0),), layer=1, node_type=0, **head):
    return record(3, struct.pack("<HH", layer, node_type) + b"".join(map(floats, points)), **head)


GRID = (1.0, 2.0, 10.0, 0.0, 0.0, 10.0, 1.0, 1.0, 0.0)  # origin, spacing_x, spacing_y, magnification, cos, sin
NO_BOX = (0, 0, 0, 0)
BOX = (0.0, 0.0, 5.0, 5.0)


def reference(kind=5, number=0, columns=1, rows=1, flags=2, grid=GRID, box=BOX, **head):
    return record(4, struct.pack("<HHHHI", columns, rows, flags, kind, number) + floats(grid) + floats(box), **head)


def cell(batches=(), texts=(), nodes=(), references=(), flags=1, units=0, box=(0.0, 0.0, 100.0, 100.0), counts=None, **head):
    lists = (batches, texts, nodes, references)
    counts = tuple(map(len, lists)) if counts is None else counts
    numbers = b"".join(struct.pack("<I", number) for numbers in lists for number in numbers)
    return record(5, struct.pack("<HQ", flags, units) + floats(box) + struct.pack("<HHHH", *counts) + numbers, **head)


def changed(bytes_, at, value):
    """The bytes with another byte at a place."""
    return bytes_[:at] + bytes([value]) + bytes_[at + 1:]


# ---- the cases

Case = collections.namedtuple("Case", "label number offset prefix block repeats suffix look_up")
CASES = []

NOTHING = 0xFFFFFFFF  # the offset of a look-up that finds no record
NONE_ASKED = (0, 0, 0)


def case(label, number, offset, sheet=b"", repeats=0, block=b"", suffix=b"", look_up=NONE_ASKED):
    CASES.append(Case(label, number, offset, sheet, block, repeats, suffix, look_up))


def sound():
    case("an empty sheet", 0, 0, b"", look_up=(5, 0, NOTHING))
    case("the worked example", 0, 0, text() + cell(texts=[0]), look_up=(5, 0, 26))
    case("a batch of 46 bytes", 0, 0, batch())
    case("a text of 26 bytes, no value", 0, 0, text())
    case("a text with 1 value byte", 0, 0, text(value=b"a"))
    case("a text with 512 value bytes", 0, 0, text(value=b"\xff" * 512))
    case("a node with 1 point", 0, 0, node())
    case("a node with 2 points", 0, 0, node([(1.0, 2.0), (3.0, 4.0)]))
    case("a node with 50 points", 0, 0, node([(1.0, 2.0)] * 50))
    case("a reference of 122 bytes, cell lacking", 0, 0, reference())
    case("a reference without a source box", 0, 0, reference(flags=0, box=NO_BOX))
    case("a reference with reflection alone", 0, 0, reference(flags=1, box=NO_BOX))
    case("a reference with both flags", 0, 0, reference(flags=3))
    case("0 columns and 0 rows", 0, 0, reference(columns=0, rows=0))
    case("32,767 columns", 0, 0, reference(columns=32767))
    case("32,767 rows", 0, 0, reference(rows=32767))
    case("a cell source FFFFFFFE", 0, 0, reference(5, 0xFFFFFFFE))
    case("a batch source", 0, 0, batch() + reference(1, 0))
    case("a batch source further on", 0, 0, reference(1, 0) + batch())
    case("a text source further on", 0, 0, reference(2, 1) + text() + text())
    case("a node source further on", 0, 0, reference(3, 0) + node())
    case("an earlier reference as source", 0, 0, reference() + reference(4, 0))
    case("three references in a row", 0, 0, reference() + reference(4, 0) + reference(4, 1) + reference(4, 0), look_up=(4, 3, 366))
    case("a cell of 56 bytes", 0, 0, cell())
    case("a cell without a box", 0, 0, cell(flags=0, box=NO_BOX))
    case("a cell with all four lists", 0, 0, batch() + text() + node() + reference() + cell([0], [0], [0], [0]), look_up=(5, 0, 220))
    case("a cell before what it names", 0, 0, cell([0], [1], [0], [0]) + batch() + text() + text() + node() + reference(), look_up=(2, 1, 144))
    case("a cell that names a text twice", 0, 0, text() + cell(texts=[0, 0]))
    case("a cell that is its own source's cell", 0, 0, reference(5, 0) + cell(references=[0]))
    case("a negative zero in a present box", 0, 0, cell(box=(MINUS_ZERO, 0, 0, 0)))
    case("a box with min above max", 0, 0, batch(box=(2.0, 2.0, 1.0, 1.0)))
    case("the largest finite float", 0, 0, text((0x7FEFFFFFFFFFFFFF, 0xFFEFFFFFFFFFFFFF)))
    case("the smallest floats", 0, 0, text((1, 0x800FFFFFFFFFFFFF)))
    case("whole numbers at their largest", 0, 0, batch(layer=0xFFFF, data_type=0xFFFF, elements=0xFFFFFFFF) + cell(units=2**64 - 1), look_up=(1, 0xFFFFFFFF, NOTHING))
    case("4,096 cells", 0, 0, block=cell(flags=0, box=NO_BOX), repeats=4096, look_up=(5, 4095, 229320))


def frame():
    for n in range(1, 6):
        case(f"{n} bytes alone", 2, 0, b"\x1a\0\0\0\x02"[:n])
    for n in range(1, 6):
        case(f"{n} bytes after a text", 2, 26, text() + b"\x1a\0\0\0\x02"[:n])
    for n in range(0, 6):
        case(f"length {n}", 2, 0, text(length=n), look_up=(2, 1, NOTHING))
    case("length 0 in the second record", 2, 46, batch() + text(length=0), look_up=(2, 0, 46))
    # 5 bytes on stands what could be the head of a text.
    case("length 5 in the second record", 2, 46, batch() + text(length=5, data_type=0x0200), look_up=(2, 1, NOTHING))
    case("length 7 with 6 bytes left", 2, 0, record(2, b"", length=7))
    for name, whole in (("batch", batch()), ("text", text()), ("node", node()), ("reference", reference()), ("cell", cell())):
        case(f"a {name} whose last byte is missing", 2, 0, whole[:-1])
        case(f"a {name} that runs 1 byte past the end", 2, 26, text() + whole[:-1])
    case("a text of length 27 with 26 bytes left", 2, 0, text(length=27))
    case("a head and nothing after it", 2, 26, text() + record(1, b"", length=46), look_up=(1, 0, 26))


def long_lengths():
    # What stands before such a record is found, and the record itself; what stands behind it is not. Added in 32 bits the first two
    # lead back by one byte and by two, where bytes of the length would be read as a kind.
    for length, middle, last in (
        (0xFFFFFFFF, (0x02FF, 0, NOTHING), (0x03FF, 0, NOTHING)),
        (0xFFFFFFFE, (0xFFFF, 0, NOTHING), (0xFFFF, 0, NOTHING)),
        (0x80000000, (2, 0, 46), (3, 0, 72)),
        (0x01000001, (2, 0, 46), (2, 0, 46)),
    ):
        case(f"length {length:08X} in the first record", 2, 0, batch(length=length) + text() + node(), look_up=(2, 0, NOTHING))
        case(f"length {length:08X} in a middle record", 2, 46, batch() + text(length=length) + node(), look_up=middle)
        case(f"length {length:08X} in the last record", 2, 72, batch() + text() + node(length=length), look_up=last)
    case("length FFFFFFFF in the only record", 2, 0, text(length=0xFFFFFFFF), look_up=(2, 0, 0))

    # Added to the offset in 32 bits these lead back to where a record stands: a walk that did so would find it once more, or the
    # node inside the text's value.
    case("length FFFFFFE6 at 26, in 32 bits back to 0", 2, 26, text() + text(length=0xFFFFFFE6), look_up=(2, 2, NOTHING))
    case("length FFFFFFB8 at 72, in 32 bits back to 0", 2, 72, batch() + node() + text(length=0xFFFFFFB8), look_up=(1, 1, NOTHING))
    case("length FFFFFFE6 at 72, in 32 bits back to 46", 2, 72, batch() + text() + text(length=0xFFFFFFE6), look_up=(2, 2, NOTHING))
    case("length FFFFFFE6 at 52, back into a value", 2, 52, text(value=node()) + text(length=0xFFFFFFE6), look_up=(3, 0, NOTHING))

    # A text's length in the low 16, 24 or 31 bits: read so, it leads to the next record or to the sheet's end.
    for length in (0x0001001A, 0x0100001A, 0x8000001A):
        case(f"length {length:08X} before a node", 2, 26, text() + text(length=length) + node(), look_up=(3, 0, NOTHING))
        case(f"length {length:08X} at the end", 2, 26, text() + text(length=length), look_up=(2, 1, 26))


def shape():
    for kind in (0, 6, 11, 0x0100, 0x0102, 0x0105, 0xFFFF):
        case(f"kind {kind}, a text's body", 3, 0, record(kind, text()[6:]))
    case("kind 0 in the second record", 3, 26, text() + record(0, text()[6:]))
    for kind in range(1, 6):
        case(f"a head alone of kind {kind}", 3, 0, record(kind, b""))
    case("a head alone before a text", 3, 0, record(2, b"") + text(), look_up=(2, 1, 6))
    case("a batch of 45 bytes", 3, 0, record(1, batch()[6:-1]))
    case("a batch of 47 bytes", 3, 0, record(1, batch()[6:] + b"\0"))
    case("a text of 25 bytes", 3, 0, record(2, text()[6:-1]))
    case("a text with 513 value bytes", 3, 0, text(value=b"a" * 513))
    case("a text with 1,000 value bytes", 3, 0, text(value=b"a" * 1000))
    case("a node without a point", 3, 0, node([]))
    case("a node with half a point", 3, 0, record(3, node()[6:18]))
    case("a node of 25 bytes", 3, 0, record(3, node()[6:-1]))
    case("a node of 27 bytes", 3, 0, record(3, node()[6:] + b"\0"))
    case("a node with a point and a half", 3, 0, record(3, node()[6:] + bytes(8)))
    case("a node of 41 bytes", 3, 0, record(3, node([(1.0, 2.0)] * 2)[6:-1]))
    case("a node of 809 bytes", 3, 0, record(3, node([(1.0, 2.0)] * 50)[6:-1]))
    case("a node of 811 bytes", 3, 0, record(3, node([(1.0, 2.0)] * 50)[6:] + b"\0"))
    case("a node with 51 points", 3, 0, node([(1.0, 2.0)] * 51))
    case("a reference of 121 bytes", 3, 0, record(4, reference()[6:-1]))
    case("a reference of 123 bytes", 3, 0, record(4, reference()[6:] + b"\0"))
    case("a cell of 55 bytes", 3, 0, record(5, cell()[6:-1]))
    case("a cell of 57 bytes", 3, 0, record(5, cell()[6:] + b"\0"))
    case("a cell of 59 bytes with 1 number", 3, 0, record(5, cell(texts=[0])[6:-1]))
    case("a cell of 61 bytes with 1 number", 3, 0, record(5, cell(texts=[0])[6:] + b"\0"))
    for place, name in enumerate(("batches", "texts", "nodes", "references")):
        one = [0, 0, 0, 0]
        one[place] = 1
        case(f"a cell with 1 of {name} and no number", 3, 0, cell(counts=tuple(one)))
        case(f"a cell with 2 numbers and 1 of {name}", 3, 0, cell(texts=[0, 0], counts=tuple(one)))
    case("a cell with a number and all counts 0", 3, 0, cell(texts=[0], counts=(0, 0, 0, 0)))
    case("a cell with all counts FFFF", 3, 0, cell(counts=(0xFFFF,) * 4))
    case("a cell with counts of FFFF and 1", 3, 0, cell(counts=(0xFFFF, 1, 0, 0)))
    case("a cell of 56 + 4 x 16384 bytes' count, short", 3, 26, text() + cell(counts=(0x4000, 0, 0, 0)))


def values():
    for n in (32768, 65535):
        case(f"{n:,} columns", 4, 0, reference(columns=n))
        case(f"{n:,} rows", 4, 0, reference(rows=n))
    for bit in range(2, 16):
        case(f"reference flag bit {bit}", 4, 0, reference(flags=2 + 2**bit))
    for bit in range(1, 16):
        case(f"cell flag bit {bit}", 4, 0, cell(flags=1 + 2**bit))
    case("cell flags 2, no box", 4, 0, cell(flags=2, box=NO_BOX))
    case("reference flags 4, no box", 4, 0, reference(flags=4, box=NO_BOX))
    for place in range(32):
        case(f"absent source box, byte {place} is 1", 4, 0, changed(reference(flags=1, box=NO_BOX), 90 + place, 1))
    for place in range(32):
        case(f"absent cell box, byte {place} is 1", 4, 0, changed(cell(flags=0, box=NO_BOX), 16 + place, 1))
    for place, name in enumerate(("min x", "min y", "max x", "max y")):
        box = list(NO_BOX)
        box[place] = MINUS_ZERO
        case(f"absent source box, {name} is -0", 4, 0, reference(flags=0, box=box))
        case(f"absent cell box, {name} is -0", 4, 26, text() + cell(flags=0, box=box))
    for kind in (0, 6, 0x0101, 0x0105, 0xFFFF):
        case(f"source kind {kind}", 4, 0, reference(kind, 0))
    case("a cell source FFFFFFFF", 4, 0, reference(5, 0xFFFFFFFF))
    case("a cell source FFFFFFFF, second", 4, 122, reference() + reference(5, 0xFFFFFFFF))


def finite():
    three = (("infinity", INFINITY), ("-infinity", NEGATIVE), ("NaN", NAN))
    corners = ("min x", "min y", "max x", "max y")
    for name, pattern in three:
        for place, corner in enumerate(corners):
            box = [0.0] * 4
            box[place] = pattern
            case(f"{name} as a batch's {corner}", 5, 0, batch(box))
            case(f"{name} as a cell's {corner}", 5, 0, cell(box=box))
        case(f"{name} as a text's x", 5, 0, text((pattern, 0.0)))
        case(f"{name} as a text's y", 5, 0, text((0.0, pattern)))
        for place in range(4):
            points = [0.0] * 4
            points[place] = pattern
            case(f"{name} as a node's float {place} of 4", 5, 0, node([points[:2], points[2:]]))
        names = ("origin x", "origin y", "spacing_x x", "spacing_x y", "spacing_y x", "spacing_y y", "magnification", "cos", "sin")
        for place, field in enumerate(names):
            grid = list(GRID)
            grid[place] = pattern
            case(f"{name} as a reference's {field}", 5, 0, reference(grid=grid))
        for place, corner in enumerate(corners):
            box = [0.0] * 4
            box[place] = pattern
            case(f"{name} as a source box's {corner}", 5, 0, reference(box=box))
    case("NaN as the last of 100 floats", 5, 0, node([(1.0, 2.0)] * 49 + [(1.0, NAN)]))
    for pattern in (0x7FF0000000000001, 0x7FFFFFFFFFFFFFFF, 0xFFF8000000000000, 0xFFFFFFFFFFFFFFFF):
        case(f"the pattern {pattern:016X}", 5, 26, text() + text((pattern, 0.0)))


def named():
    records = (("batch", batch()), ("text", text()), ("node", node()), ("reference", reference()))
    for kind, (name, other) in enumerate(records):
        lists = [[], [], [], []]
        lists[kind] = [0]
        case(f"a cell names {name} 0 of none", 6, 0, cell(*lists))
        lists[kind] = [1]
        case(f"a cell names {name} 1 of one", 6, len(other), other + cell(*lists))
        lists[kind] = [0, 1, 2]
        case(f"a cell's last number names {name} 2 of 2", 6, 2 * len(other), other * 2 + cell(*lists))
        lists[kind] = [0xFFFFFFFF]
        case(f"a cell names {name} FFFFFFFF", 6, len(other), other + cell(*lists))
    case("a cell names text 0, there is a node", 6, 26, node() + cell(texts=[0]))
    case("a cell names node 0, there is a text", 6, 26, text() + cell(nodes=[0]))
    case("a cell's second list is short of its first", 6, 46, batch() + cell([0], [0]))
    case("a batch source 0 of none", 6, 0, reference(1, 0))
    case("a batch source 1 of one", 6, 46, batch() + reference(1, 1))
    case("a text source 0 of none", 6, 0, reference(2, 0))
    case("a text source 1 of one", 6, 0, reference(2, 1) + text())
    case("a node source 0 of none", 6, 0, reference(3, 0))
    case("a node source 1 of one", 6, 26, node() + reference(3, 1))
    case("a node source FFFFFFFF", 6, 26, node() + reference(3, 0xFFFFFFFF))
    case("a reference that is its own source", 6, 0, reference(4, 0))
    case("a second reference that is its own source", 6, 122, reference() + reference(4, 1))
    case("a later reference as source", 6, 0, reference(4, 1) + reference())
    case("a reference source 2 of 2", 6, 122, reference() + reference(4, 2))
    case("a reference source FFFFFFFF", 6, 122, reference() + reference(4, 0xFFFFFFFF))
    case("the first of two that name what is missing", 6, 26, text() + cell(texts=[1]) + cell(texts=[1]))
    case("a reference before a cell, both at fault", 6, 0, reference(1, 0) + cell(texts=[0]))
    case("4,096 cells, the last at fault", 6, 56 * 4095, block=cell(flags=0, box=NO_BOX), repeats=4095, suffix=cell(texts=[0]))


def several():
    bare = cell(flags=0, box=NO_BOX)
    case("4,097 cells", 7, 0, block=bare, repeats=4097)
    case("4,097 cells and a text", 7, 0, block=bare, repeats=4097, suffix=text(), look_up=(2, 0, 229432))
    case("4,097 cells, the first at fault by 6", 7, 0, cell(texts=[0]), block=bare, repeats=4096)
    case("4,097 cells, the last at fault by 4", 4, 56 * 4096, block=bare, repeats=4096, suffix=cell(flags=2))
    case("4,097 cells and one byte more", 2, 56 * 4097, block=bare, repeats=4097, suffix=b"\0")
    case("one record with 3, 4 and 5", 3, 0, record(4, reference(columns=65535, flags=4, grid=(NAN,) * 9)[6:] + b"\0"))
    case("one record with 4 and 5", 4, 0, reference(columns=65535, grid=(NAN,) * 9))
    case("NaN in an absent box", 4, 0, cell(flags=0, box=(NAN, 0, 0, 0)))
    case("one record with 4 and 6", 4, 0, reference(4, 0, columns=65535))
    case("one record with 5 and 6", 5, 0, reference(4, 0, grid=(NAN,) * 9))
    case("kind 0 with length 5", 2, 0, record(0, bytes(8), length=5))
    case("5 before a second record's 2", 5, 0, text((NAN, 0.0)) + b"\0")
    case("5 before a second record's 3", 5, 0, text((NAN, 0.0)) + record(9, b""))
    case("4 before a second record's 3", 4, 0, cell(flags=4) + record(9, b""))
    case("3 before a second record's 2", 3, 0, record(9, b"") + b"\0")
    case("a second record's 2 before the first's 6", 2, 122, reference(4, 0) + b"\0")
    case("a second record's 3 before the first's 6", 3, 122, reference(4, 0) + record(9, b""))
    case("a second record's 4 before the first's 6", 4, 122, reference(4, 0) + cell(flags=4))
    case("a second record's 5 before the first's 6", 5, 122, reference(4, 0) + text((NAN, 0.0)))
    case("the second record's no, then the third's", 4, 26, text() + cell(flags=4) + text((NAN, 0.0)))


for group in (sound, frame, long_lengths, shape, values, finite, named, several):
    group()

# ---- the files


def packed():
    out = b""
    for case in CASES:
        name = case.label.encode().ljust(48)
        assert len(name) == 48, case.label
        out += struct.pack("<6I", case.number, case.offset, len(case.prefix), len(case.block), case.repeats, len(case.suffix))
        out += struct.pack("<3I", *case.look_up) + name + case.prefix + case.block + case.suffix
    return out


def look_ups():
    return sum(case.look_up != NONE_ASKED for case in CASES)


def expected():
    lines = []
    for number in range(8):
        name = "sound" if number == 0 else f"refusal {number}"
        passed = sum(case.number == number for case in CASES)
        lines.append(f"{name}: {passed} passed, 0 failed\n")
    lines.append(f"look-ups: {look_ups()} passed, 0 failed\n")
    return "".join(lines) + f"{len(CASES) + look_ups()} passed, 0 failed\n"


def main():
    labels = [case.label for case in CASES]
    assert len(set(labels)) == len(labels), [label for label in labels if labels.count(label) > 1]
    crate = os.path.join(os.path.dirname(os.path.abspath(__file__)), "..", "crates", "sheet_vectors")
    files = {os.path.join(crate, "stdin"): packed(), os.path.join(crate, "stdout"): expected().encode()}
    if sys.argv[1:] == ["--list"]:
        for case in CASES:
            size = len(case.prefix) + len(case.block) * case.repeats + len(case.suffix)
            kind, number, offset = case.look_up
            found = "nothing" if offset == NOTHING else offset
            print(case.number, case.offset, size, case.label + (f"; {number} of kind {kind}: {found}" if kind else ""))
    elif sys.argv[1:] == ["--check"]:
        for path, content in files.items():
            if open(path, "rb").read() != content:
                sys.exit(f"{os.path.normpath(path)} is not what this script writes")
        print(f"{len(CASES)} cases and {look_ups()} look-ups as written")
    elif sys.argv[1:]:
        sys.exit(__doc__)
    else:
        for path, content in files.items():
            open(path, "wb").write(content)
        print(f"{len(CASES)} cases, {look_ups()} look-ups, {len(packed())} bytes")


main()

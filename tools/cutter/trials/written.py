"""What tools/cut.py writes: each field, quotes, defaults, the boxes and draw units of single records."""
import struct

from cutter.records import cut
from cutter.trials.support import QUERY, box_of_cell, box_of_reference, boxes, file_text, records, same, units_of_cell


def try_bytes():
    """One record of each kind with every word, against its fields in the order of docs/FORMATS.md. The query stands first."""
    found = cut(
        "cell box=-1,-2,3,4 units=7 references=0 nodes=0 texts=0 batches=0,0\n"
        "reference rows=3 columns=2 source=cell:9 at=1,2 dx=3,4 dy=5,6 reflect=1 mag=2 cos=0.6 sin=0.8 box=0,0,1,2\n"
        "node layer=1 type=2 points=3,4;-5,6e1\ntext layer=3 type=4 at=5,6 value=Ä\nbatch layer=5 type=6 elements=7 box=8,9,10,11\ncell\n"
        "query root=1 depth=2 view=3,4,5,6 zoom=.5 hidden=7/8,65535/0\n")
    expected = [
        (20, struct.pack("<II5d2I", 1, 2, 3, 4, 5, 6, 0.5, 7 * 65536 + 8, 65535 * 65536)),
        (5, struct.pack("<HQ4d4H5I", 1, 7, -1, -2, 3, 4, 2, 1, 1, 1, 0, 0, 0, 0, 0)),
        (4, struct.pack("<HHHHI6d3d4d", 2, 3, 3, 5, 9, 1, 2, 3, 4, 5, 6, 2, 0.6, 0.8, 0, 0, 1, 2)),
        (3, struct.pack("<HH4d", 1, 2, 3, 4, -5, 60)),
        (2, struct.pack("<HH2d", 3, 4, 5, 6) + b"\xc3\x84"),
        (1, struct.pack("<HHI4d", 5, 6, 7, 8, 9, 10, 11)),
        (5, struct.pack("<HQ4d4H", 0, 0, 0, 0, 0, 0, 0, 0, 0, 0)),
    ]
    same("every word", found, b"".join(struct.pack("<IH", len(body) + 6, kind) + body for kind, body in expected))
    least = records(cut(QUERY + "reference source=cell:9 at=1,2\ncell\n"))
    same("a reference's defaults", least[4], [struct.pack("<HHHHI6d3d4d", 1, 1, 0, 5, 9, 1, 2, 0, 0, 0, 0, 1, 1, 0, 0, 0, 0, 0)])
    same("an empty cell", least[5], [struct.pack("<HQ4d4H", 0, 0, 0, 0, 0, 0, 0, 0, 0, 0)])


def try_quotes():
    values = {
        '"PAD 1"': "PAD 1", '"a # b"': "a # b", "A#1": "A#1", "PAD # x": "PAD", '""': "", "": "", r'"\"\\"': '"\\', "\\n": "\\n",
        "no-break\u00a0blank": "no-break\u00a0blank", '"line\u2028separator"': "line\u2028separator",
    }
    for written, value in values.items():
        found = records(cut(QUERY + "text layer=1 type=0 at=1,2 value=%s\n" % written))[2][0][20:]
        same("value=%s" % written, found.decode(), value)
    longest = "ä" * 256
    same("512 bytes", records(cut(QUERY + "text layer=1 type=0 at=1,2 value=%s" % longest))[2][0][20:], longest.encode())
    same("blanks in a list", cut('query root=0 depth="1" view="0, 0, 9, 9" zoom=1 hidden=""\n'), cut(QUERY))


def try_left_to_plan():
    """Faults that are written as described, for plan to refuse."""
    query = "query root=0 depth=%s view=%s zoom=%s"
    same("number 8", cut(query % (1, "9,0,0,9", 1))[14:46], struct.pack("<4d", 9, 0, 0, 9))
    same("number 9", cut(query % (1, "0,0,9,9", "-0.0"))[46:], struct.pack("<d", -0.0))
    same("number 10", cut(query % (49, "0,0,9,9", 1))[10:14], struct.pack("<I", 49))
    wide = records(cut(QUERY + "reference source=cell:4294967295 at=0,0 columns=65535"))[4][0]
    same("number 4", struct.unpack_from("<HHHHI", wide), (65535, 1, 0, 5, 4294967295))
    same("number 7", len(records(cut(QUERY + "cell\n" * 4097))[5]), 4097)


def try_sample():
    """The boxes of samples/pads.txt, and the draw units of its cells, as a person counts them."""
    found = records(cut(file_text("samples", "pads.txt")))
    same("source boxes of the sample", [box_of_reference(body) for body in found[4]], [(0, 0, 80, 80), (0, 0, 80, 80), (0, 0, 4, 4)])
    same("cell boxes of the sample", [box_of_cell(body) for body in found[5]], [(0, 0, 80, 80), (0, 0, 4, 4), (10, 10, 990, 590)])
    same("draw units of the sample", [units_of_cell(body) for body in found[5]], [4, 3, 2])


ITEMS = ("batch layer=1 type=0 elements=300 box=0,0,4,2\nbatch layer=1 type=0 elements=0 box=0,0,99,99\n"
         "text layer=1 type=0 at=5,6\nnode layer=1 type=0 points=7,1;2,9;3,3\n")


def try_words_box():
    """The box of a reference to each kind of source, and what `box=` changes."""
    sources = {
        "batch:0": (0, 0, 4, 2), "batch:1": None, "text:0": (5, 6, 5, 6), "node:0": (2, 1, 7, 9),
        "cell:0": (0, 0, 7, 9), "cell:1": None, "batch:0 box=none": None, "batch:1 box=1,2,3,4": (1, 2, 3, 4), "cell:0 box=-1,0,9,9": (-1, 0, 9, 9),
    }
    cell = "cell batches=0,1 texts=0 nodes=0\n"
    for source, box in sources.items():
        found = boxes(QUERY + ITEMS + cell + "reference at=0,0 source=%s" % source)
        same("source=%s" % source, found, ([box], [(0, 0, 7, 9)]))
    inner = "reference source=text:0 at=10,20 columns=2 dx=3,0\nreference source=reference:0 at=0,0 %s\ncell references=1"
    same("an inner reference", boxes(QUERY + ITEMS + inner % "mag=2"), ([(5, 6, 5, 6), (15, 26, 18, 26)], [(30, 52, 36, 52)]))
    same("an empty grid", boxes(QUERY + ITEMS + inner % "rows=0"), ([(5, 6, 5, 6), (15, 26, 18, 26)], [None]))
    same("a reference without a box", boxes(QUERY + ITEMS + inner % "box=none"), ([(5, 6, 5, 6), None], [None]))
    given = "reference source=cell:0 at=1,1\ncell references=0 texts=0 box=%s"
    same("a circle with a box by hand", boxes(QUERY + ITEMS + given % "0,0,8,8"), ([(0, 0, 8, 8)], [(0, 0, 8, 8)]))
    same("a circle without boxes", boxes(QUERY + ITEMS + given % "none"), ([None], [None]))
    circle = "reference source=cell:0 at=1,1 columns=0\nreference source=reference:0 at=0,0\ncell references=0,1 texts=0"
    same("a circle through an empty grid", boxes(QUERY + ITEMS + circle), ([(5, 6, 5, 6), None], [(5, 6, 5, 6)]))
    fifty = "node layer=1 type=0 points=%s;9,9\ncell nodes=0" % ";".join(["0,0"] * 49)
    same("50 points", boxes(QUERY + fifty), ([], [(0, 0, 9, 9)]))
    minus = records(cut(QUERY + "text layer=1 type=0 at=-0,-0\ncell texts=0"))[5][0][10:42]
    same("a computed zero is +0", minus, bytes(32))


def try_units():
    cells = {"": 0, "batches=0": 300, "batches=0,1,0": 600, "texts=0,0": 2, "nodes=0": 1, "batches=0 units=5": 5,
             "units=18446744073709551615": 2**64 - 1}
    for words, units in cells.items():
        same("draw units of %s" % words, units_of_cell(records(cut(QUERY + ITEMS + "cell " + words))[5][0]), units)


def run():
    try_bytes()
    try_quotes()
    try_left_to_plan()
    try_sample()
    try_words_box()
    try_units()

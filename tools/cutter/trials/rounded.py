"""Boxes of sheets that are not square: the planner's rounded steps, against stored vectors and stored boxes that plan printed."""
import math
import struct

from cutter.boxes import mul_add
from cutter.trials.support import boxes, file_text, same


def double(pattern):
    return struct.unpack(">d", bytes.fromhex(pattern))[0]


def try_mul_add():
    """The fused operation, against the stored vectors of the crate floats_vectors whose operands are finite."""
    tried, wrong = 0, []
    for name in ("published-fused.txt", "hardware-fused.txt", "document-fused.txt"):
        for line in file_text("crates", "floats_vectors", "data", name).splitlines():
            values = [] if line.startswith("#") else [double(word) for word in line.split()]
            if values and all(map(math.isfinite, values[:3])):
                tried += 1
                if mul_add(*values[:3]) != values[3]:
                    wrong.append(line)
    same("fused vectors", wrong, [])
    same("fused vectors are there", tried > 250, True)


# A sheet that is not square, and the boxes that the program plan printed of its two references at depth 1.
TURNED = """query root=1 depth=1 view=-1e9,-1e9,1e9,1e9 zoom=1
batch layer=1 type=0 elements=1 box=0.1,0.2,80.3,79.9
cell batches=0
reference source=cell:0 at=10.7,-3.3 columns=7 rows=5 dx=109.1,1.5 dy=-0.5,68.1 mag=1.1 cos=0.8660254037844387 sin=0.49999999999999994
reference source=cell:0 at=1e3,1e-3 columns=3 rows=9 dx=1e-7,33.3 dy=0.1,7 mag=0.3 cos=-0.28 sin=0.96 reflect=1
cell references=0,1
"""
PLANNED = (
    "c065629e01e5363d c0086f9047b376a9 40844be3d8bc3e29 408577d60f4bf1a1",
    "408b5b23a294f376 c040c1b715bc90fc 408ff805bc01a36e 403dd6c8b4395810",
)


def in_hexadecimal(box):
    return " ".join(struct.pack(">d", side).hex() for side in box)


def try_turned():
    """Each box alone in a cell of its own, since a cell's box is that of its references merged."""
    for n, expected in enumerate(PLANNED):
        found = boxes(TURNED.replace("cell references=0,1", "cell references=%d" % n))[1][1]
        same("box %d of a sheet that is not square" % n, in_hexadecimal(found), expected)


def run():
    try_mul_add()
    try_turned()

"""The messages of tools/cut.py: one for each kind of fault, in a description, in the arguments, in reading and in writing."""
import os
import tempfile

from cutter.records import cut
from cutter.trials.support import QUERY, ROOT, ran, same

# A description without its query, the line (the query's is 1), and what is said.

QUOTES = 'a value with blanks stands in quotes, in which \\" is a quote and \\\\ a backslash'
REFERENCE_WORDS = "source, at, columns, rows, dx, dy, reflect, mag, cos, sin, box"
SHAPE = "batch layer=1 type=0 elements=1 box=0,0,1e308,1\n"
TEXT = "text layer=1 type=0 at=0,0\n"
OVERFLOW = "a step towards its box is beyond the greatest float; give box=MIN X,MIN Y,MAX X,MAX Y by hand"
CIRCLE = "%s in a circle, so no least box can be computed; give %s box=MIN X,MIN Y,MAX X,MAX Y by hand"
MESSAGES = [
    ("cel", 2, 'unknown kind "cel"; known are query, batch, text, node, reference, cell'),
    ("box=1", 2, "a line starts with the kind of its record, not with a word box="),
    ("reference source=cell:0 at=0,0 magnification=2", 2, 'unknown word "magnification"; a reference has ' + REFERENCE_WORDS),
    ("reference source=cell:0 at=0,0 bx=0,0,1,1", 2, 'unknown word "bx"; a reference has ' + REFERENCE_WORDS),
    ("cell units=1 units=1", 2, "units stands twice"),
    ("cell units", 2, '"units" has no value: a word is name=value, and a value with blanks stands in quotes'),
    ("batch layer=1 type=0", 2, "a batch needs elements, box"),
    ("text layer=1 type=0", 2, "a text needs at"),
    ("reference source=cell:0", 2, "a reference needs at"),
    ("query root=0 depth=1 view=0,0,9,9 zoom=1", 2, "a second query; one call makes one plan"),
    ("cell units=1.5", 2, 'units: "1.5" is no whole number from 0 to 18446744073709551615'),
    ("cell units=18446744073709551616", 2, 'units: "18446744073709551616" is no whole number from 0 to 18446744073709551615'),
    ("cell units=-1", 2, 'units: "-1" is no whole number from 0 to 18446744073709551615'),
    ("cell units=1_0", 2, 'units: "1_0" is no whole number from 0 to 18446744073709551615'),
    ("text layer=65536 type=0 at=0,0", 2, 'layer: "65536" is no whole number from 0 to 65535'),
    ("batch layer=1 type=0 elements=4294967296 box=0,0,1,1", 2, 'elements: "4294967296" is no whole number from 0 to 4294967295'),
    ("text layer=1 type=0 at=0,x", 2, 'at: "x" is no number'),
    ("text layer=1 type=0 at=0,nan", 2, 'at: "nan" is no number'),
    ("text layer=1 type=0 at=0,1e309", 2, 'at: "1e309" is beyond the greatest float'),
    ("text layer=1 type=0 at=0", 2, "at: 2 numbers are wanted, parted by commas"),
    ("node layer=1 type=0 points=0,0,1,1", 2, "points: 2 numbers are wanted, parted by commas"),
    ("node layer=1 type=0 points=", 2, "points: 2 numbers are wanted, parted by commas"),
    ("node layer=1 type=0 points=" + ";".join(["0,0"] * 51), 2, "points: a node has at most 50 points"),
    ("text layer=1 type=0 at=0,0 value=x" + "ä" * 256, 2, "value: a text has at most 512 bytes"),
    ("batch layer=1 type=0 elements=1 box=0,0,1", 2, "box: 4 numbers are wanted, parted by commas"),
    ("batch layer=1 type=0 elements=1 box=none", 2, "box: 4 numbers are wanted, parted by commas"),
    ("cell box=0,2,1,1", 2, "box: a box is min x, min y, max x, max y, min at most max"),
    ("reference source=cell:0 at=0,0 reflect=yes", 2, "reflect: 0 or 1 is wanted"),
    ("reference source=cell:0 at=0,0 cos=0", 2, "cos and sin stand together"),
    ("reference source=shape:0 at=0,0", 2, "source: a source is KIND:NUMBER, the kind one of batch, text, node, reference, cell"),
    ("reference source=cell at=0,0", 2, "source: a source is KIND:NUMBER, the kind one of batch, text, node, reference, cell"),
    ("cell batches=" + ",".join(["0"] * 65536), 2, "batches: a list has at most 65535 numbers"),
    ("\n# a remark\ncell texts=0", 4, "texts: there is no text 0; 0 described, counted from 0"),
    ("text layer=1 type=0 at=0,0\nreference source=text:1 at=0,0", 3, "source: there is no text 1; 1 described, counted from 0"),
    ("reference source=reference:0 at=0,0", 2, "source: this is reference 0, and a reference places an earlier one"),
    ('text layer=1 type=0 at=0,0 value="PAD', 2, 'cannot read value="PAD: ' + QUOTES),
    ('text layer=1 type=0 at=0,0 value="PAD"1', 2, 'cannot read value="PAD"1: ' + QUOTES),
    ('text layer=1 type=0 at=0,0 value=6"', 2, 'cannot read value=6": ' + QUOTES),
    ('text layer=1 type=0 at=0,0 value="\\n"', 2, 'cannot read value="\\n": ' + QUOTES),
    ("cell references=0\nreference source=cell:0 at=1,0", 2, CIRCLE % ("cell 0 places itself", "it")),
    ("cell\ncell references=1\nreference source=cell:8 at=1,0\nreference source=reference:0 at=0,0\n" + "cell\n" * 6
     + "cell references=2\nreference source=cell:1 at=0,0", 3, CIRCLE % ("cells 1, 8 place each other", "one of them")),
    (SHAPE + "reference source=batch:0 at=1e308,0\ncell references=0", 4, OVERFLOW),
    (TEXT + "reference source=text:0 at=0,0 columns=3 dx=1e308,0 cos=0.6 sin=0.8\ncell references=0", 4, OVERFLOW),
    (TEXT + "reference source=text:0 at=0,0 columns=2 dx=1,1e308 cos=0.6 sin=8\ncell references=0", 4, OVERFLOW),
    (TEXT + "reference source=text:0 at=0,0 columns=2 dx=1,1e308 cos=8 sin=0.6\ncell references=0", 4, OVERFLOW),
    (SHAPE + "reference source=batch:0 at=0,0 mag=1e308 cos=1e300 sin=0\ncell references=0", 4, OVERFLOW),
]


def try_descriptions(work):
    path = os.path.join(work, "faulty.txt")
    for description, line, what in MESSAGES:
        with open(path, "w", encoding="utf-8") as file:
            file.write(QUERY + description + "\n")
        same("%.60r" % description, ran(path), (2, b"", "%s:%d: %s\n" % (path, line, what)))
    for hidden, what in (("1", "hidden layers are LAYER/TYPE, parted by commas"), ("1/x", '"x" is no whole number from 0 to 65535')):
        faulty = "query root=0 depth=1 view=0,0,9,9 zoom=1 hidden=%s" % hidden
        same(faulty, ran("-", input=faulty.encode()), (2, b"", "standard input:1: hidden: %s\n" % what))
    lost = "cell\nquery root=1 depth=1 view=0,0,9,9 zoom=1"
    same("a root that is not there", ran("-", input=lost.encode()),
         (2, b"", "standard input:2: root: there is no cell 1; 1 described, counted from 0\n"))
    missing = "the query is missing: query root=NUMBER depth=NUMBER view=MIN X,MIN Y,MAX X,MAX Y zoom=NUMBER"
    same("no query", ran("-", input=b"cell\n"), (2, b"", "standard input: %s\n" % missing))


def try_arguments(work):
    usage = "usage: cut.py FILE (cut.py --help says more)\n"
    status, out, errors = ran("--help")
    same("--help", (status, out.startswith(b"Usage: cut.py FILE\n"), errors), (0, True, ""))
    same("-h", ran("-h"), (0, out, ""))
    for arguments in ((), ("a", "b"), ("--sheet",)):
        same("arguments %r" % (arguments,), ran(*arguments), (2, b"", usage))
    absent = os.path.join(work, "absent.txt")
    same("a missing file", ran(absent), (2, b"", absent + ": No such file or directory\n"))
    same("a folder", ran(work), (2, b"", work + ": Is a directory\n"))
    same("no UTF-8", ran("-", input=QUERY.encode() + b"# \xff\n"), (2, b"", "standard input:2: no UTF-8\n"))
    same("standard input closed", ran("-", preexec_fn=lambda: os.close(0)), (2, b"", "standard input: Bad file descriptor\n"))
    same("standard input", ran("-", input=QUERY.encode()), (0, cut(QUERY), ""))
    windows = b"\xef\xbb\xbf" + QUERY.encode().replace(b"\n", b"\r\n")
    same("a mark of byte order, and CR LF", ran("-", input=windows), (0, cut(QUERY), ""))


def try_failed_writes():
    sample = os.path.join(ROOT, "samples", "pads.txt")
    for arguments in ((sample,), ("--help",)):
        with open("/dev/full", "wb") as full:
            same("a full device", ran(*arguments, stdout=full), (2, None, "standard output: No space left on device\n"))
    reader, writer = os.pipe()
    os.close(reader)
    same("a pipe that nobody reads", ran(sample, stdout=writer), (2, None, "standard output: Broken pipe\n"))
    os.close(writer)
    same("standard output closed", ran(sample, preexec_fn=lambda: os.close(1)), (2, b"", "standard output: Bad file descriptor\n"))


def run():
    with tempfile.TemporaryDirectory() as work:
        try_descriptions(work)
        try_arguments(work)
    try_failed_writes()

"""The kinds of records, the words of each, and how the value of a word is read."""
import math
import re

from cutter.lines import Fault

COMPUTED = object()  # the default of a box and of a cell's draw units: they are computed once all lines are read
NEEDED = object()  # no default: the word must stand
SOURCES = {"batch": 1, "text": 2, "node": 3, "reference": 4, "cell": 5}
LISTS = {"batches": "batch", "texts": "text", "nodes": "node", "references": "reference"}
INTEGER = re.compile(r"[0-9]{1,20}")
FLOAT = re.compile(r"[+-]?([0-9]+\.?[0-9]*|\.[0-9]+)([eE][+-]?[0-9]+)?")
TEXT_BYTES = 512
NODE_POINTS = 50
LIST_NUMBERS = 65535


# ---- values; a ValueError says what is wrong

def integer(bits):
    """A reader of unsigned integers of so many bits."""
    def read(written):
        written = written.strip()
        if not INTEGER.fullmatch(written) or int(written) >= 2**bits:
            raise ValueError('"%s" is no whole number from 0 to %d' % (written, 2**bits - 1))
        return int(written)
    return read


def number(written):
    written = written.strip()
    if not FLOAT.fullmatch(written):
        raise ValueError('"%s" is no number' % written)
    if not math.isfinite(float(written)):
        raise ValueError('"%s" is beyond the greatest float' % written)
    return float(written)


def numbers(count, written):
    parts = written.split(",")
    if len(parts) != count:
        raise ValueError("%d numbers are wanted, parted by commas" % count)
    return tuple(number(part) for part in parts)


def point(written):
    return numbers(2, written)


def points(written):
    found = [point(part) for part in written.split(";")]
    if len(found) > NODE_POINTS:
        raise ValueError("a node has at most %d points" % NODE_POINTS)
    return found


def view(written):
    return numbers(4, written)


def box(written):
    found = numbers(4, written)
    if found[0] > found[2] or found[1] > found[3]:
        raise ValueError("a box is min x, min y, max x, max y, min at most max")
    return found


def box_or_none(written):
    return None if written == "none" else box(written)


def flag(written):
    if written not in ("0", "1"):
        raise ValueError("0 or 1 is wanted")
    return int(written)


def text(written):
    found = written.encode()
    if len(found) > TEXT_BYTES:
        raise ValueError("a text has at most %d bytes" % TEXT_BYTES)
    return found


def items(written):
    found = [integer(32)(part) for part in written.split(",")] if written.strip() else []
    if len(found) > LIST_NUMBERS:
        raise ValueError("a list has at most %d numbers" % LIST_NUMBERS)
    return found


def hidden(written):
    """Hidden layers, LAYER/TYPE each."""
    found = []
    for part in written.split(",") if written.strip() else []:
        pair = part.split("/")
        if len(pair) != 2:
            raise ValueError("hidden layers are LAYER/TYPE, parted by commas")
        found.append((integer(16)(pair[0]), integer(16)(pair[1])))
    return found


def source(written):
    kind, colon, item = written.partition(":")
    if not colon or kind not in SOURCES:
        raise ValueError("a source is KIND:NUMBER, the kind one of " + ", ".join(SOURCES))
    return kind, integer(32)(item)


# ---- kinds: for each word how it is read, and its default

LAYER = {"layer": (integer(16), NEEDED), "type": (integer(16), NEEDED)}
KINDS = {
    "query": {
        "root": (integer(32), NEEDED), "depth": (integer(32), NEEDED), "view": (view, NEEDED), "zoom": (number, NEEDED),
        "hidden": (hidden, []),
    },
    "batch": {**LAYER, "elements": (integer(32), NEEDED), "box": (box, NEEDED)},
    "text": {**LAYER, "at": (point, NEEDED), "value": (text, b"")},
    "node": {**LAYER, "points": (points, NEEDED)},
    "reference": {
        "source": (source, NEEDED), "at": (point, NEEDED),
        "columns": (integer(16), 1), "rows": (integer(16), 1), "dx": (point, (0.0, 0.0)), "dy": (point, (0.0, 0.0)),
        "reflect": (flag, 0), "mag": (number, 1.0), "cos": (number, 1.0), "sin": (number, 0.0), "box": (box_or_none, COMPUTED),
    },
    "cell": {"box": (box_or_none, COMPUTED), "units": (integer(64), COMPUTED), **{name: (items, []) for name in LISTS}},
}


def read(kind, written):
    """The values of a record's words, defaults included."""
    if kind not in KINDS:
        raise Fault('unknown kind "%s"; known are %s' % (kind, ", ".join(KINDS)))
    known = KINDS[kind]
    for name in written:
        if name not in known:
            raise Fault('unknown word "%s"; a %s has %s' % (name, kind, ", ".join(known)))
    missing = [name for name, (_, default) in known.items() if default is NEEDED and name not in written]
    if missing:
        raise Fault("a %s needs %s" % (kind, ", ".join(missing)))
    if ("cos" in written) != ("sin" in written):
        raise Fault("cos and sin stand together")
    return {name: value(name, written, *word) for name, word in known.items()}


def value(name, written, reader, default):
    try:
        return reader(written[name]) if name in written else default
    except ValueError as fault:
        raise Fault("%s: %s" % (name, fault))

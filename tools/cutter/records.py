"""The bytes of a query and a sheet, from the words of their lines. docs/FORMATS.md has the formats."""
import struct

from cutter import boxes, lines, words
from cutter.lines import Fault
from cutter.words import COMPUTED, LISTS, SOURCES

QUERY = 20


# ---- one record

def framed(kind, body):
    return struct.pack("<IH", len(body) + 6, kind) + body


def floats(*values):
    return struct.pack("<%dd" % len(values), *values)


def integers(values):
    return struct.pack("<%dI" % len(values), *values)


def bbox(box):
    return bytes(32) if box is None else floats(*box)


def layer(record):
    return struct.pack("<HH", record["layer"], record["type"])


def query(record):
    hidden = [layer * 65536 + data_type for layer, data_type in record["hidden"]]
    head = struct.pack("<II", record["root"], record["depth"]) + floats(*record["view"], record["zoom"])
    return head + integers(hidden)


def batch(record):
    return layer(record) + struct.pack("<I", record["elements"]) + bbox(record["box"])


def text(record):
    return layer(record) + floats(*record["at"]) + record["value"]


def node(record):
    return layer(record) + b"".join(floats(*point) for point in record["points"])


def reference(record):
    kind, item = record["source"]
    flags = record["reflect"] + (0 if record["box"] is None else 2)
    head = struct.pack("<HHHHI", record["columns"], record["rows"], flags, SOURCES[kind], item)
    grid = floats(*record["at"], *record["dx"], *record["dy"], record["mag"], record["cos"], record["sin"])
    return head + grid + bbox(record["box"])


def cell(record):
    lists = [record[name] for name in LISTS]
    head = struct.pack("<HQ", 0 if record["box"] is None else 1, record["units"]) + bbox(record["box"])
    return head + struct.pack("<4H", *map(len, lists)) + integers([item for items in lists for item in items])


BODIES = {"batch": batch, "text": text, "node": node, "reference": reference, "cell": cell}


# ---- a whole description

def read(description):
    """The query, the sheet's records by kind, their lines, and the kinds in the order of the lines."""
    queries, order = [], []
    records, places = {kind: [] for kind in SOURCES}, {kind: [] for kind in SOURCES}
    for line, kind, written in lines.described(description):
        try:
            record = words.read(kind, written)
            if kind == "query" and queries:
                raise Fault("a second query; one call makes one plan")
        except Fault as fault:
            raise Fault(str(fault), line)
        if kind == "query":
            queries.append((record, line))
        else:
            order.append((kind, len(records[kind])))
            records[kind].append(record)
            places[kind].append(line)
    if not queries:
        raise Fault("the query is missing: query root=NUMBER depth=NUMBER view=MIN X,MIN Y,MAX X,MAX Y zoom=NUMBER")
    return queries[0], records, places, order


def check_number(records, word, kind, item):
    if item >= len(records[kind]):
        raise Fault("%s: there is no %s %d; %d described, counted from 0" % (word, kind, item, len(records[kind])))


def check_source(records, n, kind, item):
    if kind == "reference" and item >= n:
        raise Fault("source: this is reference %d, and a reference places an earlier one" % n)
    if kind != "cell":
        check_number(records, "source", kind, item)


def check_lists(records, cell):
    for name, kind in LISTS.items():
        for item in cell[name]:
            check_number(records, name, kind, item)


def check_root(asked, line, records):
    """Of a root that is not there the plan is empty, whatever the sheet holds. A sheet without cells has no other plan."""
    try:
        if records["cell"]:
            check_number(records, "root", "cell", asked["root"])
    except Fault as fault:
        raise Fault(str(fault), line)


def check_numbers(records, places):
    """Every number names a record that is there, and a reference places an earlier one. A missing cell may be placed."""
    for kind in ("reference", "cell"):
        for n, record in enumerate(records[kind]):
            try:
                if kind == "cell":
                    check_lists(records, record)
                else:
                    check_source(records, n, *record["source"])
            except Fault as fault:
                raise Fault(str(fault), places[kind][n])


def direct_draw_units(records, record):
    """What the viewer's `build` counts: a cell's own elements, a text and a node being one each."""
    return sum(records["batch"][n]["elements"] for n in record["batches"]) + len(record["texts"]) + len(record["nodes"])


def cut(description):
    """The bytes of the query and of the sheet that a description describes."""
    (asked, line), records, places, order = read(description)
    check_root(asked, line, records)
    check_numbers(records, places)
    boxes.compute(records, places)
    for record in records["cell"]:
        if record["units"] is COMPUTED:
            record["units"] = direct_draw_units(records, record)
    sheet = [framed(SOURCES[kind], BODIES[kind](records[kind][n])) for kind, n in order]
    return framed(QUERY, query(asked)) + b"".join(sheet)

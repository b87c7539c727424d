"""True least boxes of cells and references, by the planner's own steps, each rounded once (bevy_scene.rs, names as there).

A box is (min x, min y, max x, max y), or None where there is none.
"""
import graphlib
import math
from fractions import Fraction

from cutter.lines import Fault
from cutter.words import COMPUTED


# ---- the planner's steps

def mul_add(a, b, c):
    """The fused a·b + c of finite floats, rounded once; infinite where it overflows. (Python has one from 3.13 on.)"""
    if b in (0.0, 1.0, -1.0):
        return a * b + c  # the product is exact
    exact = Fraction(a) * Fraction(b) + Fraction(c)
    try:
        return float(exact)
    except OverflowError:
        return math.inf if exact > 0 else -math.inf


def grid_member_transform(grid, column, row):
    """x axis, y axis and translation of a member, one tuple of six."""
    cos, sin, mag = grid["cos"], grid["sin"], grid["mag"]
    x, y = (dx * column + dy * row for dx, dy in zip(grid["dx"], grid["dy"]))
    finite(x, y)
    rotated = mul_add(x, cos, finite(-(y * sin))), mul_add(x, sin, finite(y * cos))
    x_axis = cos * mag, sin * mag
    y_axis = (sin * mag, -cos * mag) if grid["reflect"] else (-sin * mag, cos * mag)
    return (*x_axis, *y_axis, grid["at"][0] + rotated[0], grid["at"][1] + rotated[1])


def transform_bbox(transform, bbox):
    xx, xy, yx, yy, tx, ty = transform
    corners = [(x, y) for x in bbox[0::2] for y in bbox[1::2]]
    xs = [(xx * x + yx * y) + tx for x, y in corners]
    ys = [(xy * x + yy * y) + ty for x, y in corners]
    finite(*xs, *ys)
    return min(xs), min(ys), max(xs), max(ys)


def reference_bbox(grid, source_bbox):
    """The box around the members at the grid's corners; None without a source box or without members."""
    if source_bbox is None or is_empty(grid):
        return None
    corners = [(column, row) for column in (0, grid["columns"] - 1) for row in (0, grid["rows"] - 1)]
    return merge(transform_bbox(grid_member_transform(grid, *corner), source_bbox) for corner in corners)


def finite(*values):
    """The last value, where all are finite. A step beyond the greatest float leaves no box to write."""
    if not all(map(math.isfinite, values)):
        raise Fault("a step towards its box is beyond the greatest float; give box=MIN X,MIN Y,MAX X,MAX Y by hand")
    return values[-1]


def is_empty(grid):
    return grid["columns"] == 0 or grid["rows"] == 0


def merge(bboxes):
    """The least box around all that are there; None where none is. A zero is written +0."""
    found = [bbox for bbox in bboxes if bbox is not None]
    if not found:
        return None
    sides = list(zip(*found))
    return min(sides[0]) + 0.0, min(sides[1]) + 0.0, max(sides[2]) + 0.0, max(sides[3]) + 0.0


def around(points):
    return merge((x, y, x, y) for x, y in points)


def batch_bbox(batch):
    return merge([batch["box"]]) if batch["elements"] else None


# ---- the boxes of a sheet: `records` are the read words by kind, `places` their lines

def source_bbox(records, reference):
    kind, item = reference["source"]
    if kind == "cell":
        return records["cell"][item]["box"] if item < len(records["cell"]) else None
    if kind == "reference":
        inner = records["reference"][item]
        return reference_bbox(inner, inner["box"])
    if kind == "batch":
        return batch_bbox(records["batch"][item])
    return around([records["text"][item]["at"]] if kind == "text" else records["node"][item]["points"])


def cell_bbox(records, cell):
    parts = [batch_bbox(records["batch"][n]) for n in cell["batches"]]
    parts.append(around(records["text"][n]["at"] for n in cell["texts"]))
    parts += [around(records["node"][n]["points"]) for n in cell["nodes"]]
    parts += [reference_bbox(records["reference"][n], records["reference"][n]["box"]) for n in cell["references"]]
    return merge(parts)


def needs(records, kind, record):
    """The cells and references whose box must be known first. An empty grid has no box, whatever it places."""
    if record["box"] is not COMPUTED:
        return []
    if kind == "cell":
        inner = record["references"]
    else:
        source, item = record["source"]
        if source == "cell":
            return [("cell", item)] if item < len(records["cell"]) else []
        inner = [item] if source == "reference" else []
    return [("reference", n) for n in inner if not is_empty(records["reference"][n])]


def circle(found, places):
    """The message on a circle. Its cells are named by their numbers; the line is that of the first."""
    cells = sorted({n for kind, n in found if kind == "cell"})
    named, given = "cell %d places itself" % cells[0], "it"
    if len(cells) > 1:
        named, given = "cells %s place each other" % ", ".join(map(str, cells)), "one of them"
    what = "%s in a circle, so no least box can be computed; give %s box=MIN X,MIN Y,MAX X,MAX Y by hand" % (named, given)
    return Fault(what, places["cell"][cells[0]])


def in_order(records, places):
    """Cells and references, each after those that its box needs."""
    kinds = ("reference", "cell")
    graph = {(kind, n): needs(records, kind, record) for kind in kinds for n, record in enumerate(records[kind])}
    try:
        return list(graphlib.TopologicalSorter(graph).static_order())
    except graphlib.CycleError as fault:
        raise circle(fault.args[1], places)


def compute(records, places):
    """Puts a box in the place of each that is to be computed."""
    for kind, n in in_order(records, places):
        record = records[kind][n]
        try:
            if record["box"] is COMPUTED:
                record["box"] = cell_bbox(records, record) if kind == "cell" else source_bbox(records, record)
        except Fault as fault:
            raise Fault(str(fault), places[kind][n])

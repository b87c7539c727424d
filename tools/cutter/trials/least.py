"""Computed boxes of random square sheets, against every placed item: whole numbers, each member by reflection, turn and move."""
import itertools
import random
import struct

from cutter.records import cut
from cutter.trials.support import QUERY, box_of_cell, box_of_reference, records, same

TURNS = ((1, 0), (0, 1), (-1, 0), (0, -1))


def items(random, pair):
    """One to four batches, two texts, two nodes."""
    lines = []
    for _ in range(random.randint(1, 4)):
        x, y = random.randint(-9, 9), random.randint(-9, 9)
        box = x, y, x + random.randint(0, 9), y + random.randint(0, 9)
        lines.append("batch layer=1 type=0 elements=%d box=%d,%d,%d,%d" % (random.choice((0, 1, 5)), *box))
    lines += ["text layer=1 type=0 at=" + pair(20) for _ in range(2)]
    return lines + ["node layer=1 type=0 points=" + ";".join(pair(20) for _ in range(random.randint(1, 3))) for _ in range(2)]


def random_sheet(random):
    """A description without circles: a cell places cells of a lower rank and missing ones. Numbers may name later lines."""
    def pair(n):
        return "%d,%d" % (random.randint(-n, n), random.randint(-n, n))
    lines, cells = items(random, pair), random.randint(1, 5)
    rank, reached = random.sample(range(cells), cells), []
    counts = {"batch": len(lines) - 4, "text": 2, "node": 2, "cell": cells + 1}
    for n in range(random.randint(1, 7)):
        kind = random.choice(("batch", "text", "node", "cell", "cell", "cell") + ("reference",) * min(n, 2))
        item = random.randrange(n if kind == "reference" else counts[kind])
        reached.append(reached[item] if kind == "reference" else rank[item] if kind == "cell" and item < cells else -1)
        cos, sin = random.choice(TURNS)
        grid = random.choice((0, 1, 1, 2, 3)), random.choice((1, 1, 2, 3)), pair(15), pair(15)
        lines.append("reference source=%s:%d at=%s columns=%d rows=%d dx=%s dy=%s reflect=%d cos=%d sin=%d" % (
            kind, item, pair(30), *grid, random.randint(0, 1), cos, sin))
    for n in range(cells):
        placed = [m for m in range(len(reached)) if reached[m] < rank[n] and random.random() < 0.5]
        own = [[m for m in range(counts[kind]) if random.random() < 0.2] for kind in ("batch", "text", "node")]
        lines.append("cell batches=%s texts=%s nodes=%s references=%s" % tuple(",".join(map(str, some)) for some in (*own, placed)))
    return QUERY + "\n".join(shuffled(random, lines))


def shuffled(random, lines):
    """The kinds mixed, the lines of one kind in their order."""
    kinds = {}
    for line in lines:
        kinds.setdefault(line.split()[0], []).append(line)
    order = random.sample([line.split()[0] for line in lines], len(lines))
    return [kinds[kind].pop(0) for kind in order]


class Expanded:
    """All that a sheet places: lists of the points that bound a source's items, each taken from the bytes."""

    def __init__(self, sheet):
        self.found, self.known = records(sheet), {}

    def points(self, kind, n):
        if (kind, n) not in self.known:
            body = self.found[kind][n] if n < len(self.found[kind]) else None
            of_kind = (self.batch, self.text, self.node, self.reference, self.cell)[kind - 1]
            self.known[kind, n] = [] if body is None else of_kind(body)
        return self.known[kind, n]

    def batch(self, body):
        elements, *box = struct.unpack("<I4d", body[4:])
        return list(itertools.product(box[0::2], box[1::2])) if elements else []

    def text(self, body):
        return [struct.unpack_from("<2d", body, 4)]

    def node(self, body):
        return list(struct.iter_unpack("<2d", body[4:]))

    def reference(self, body):
        columns, rows, flags, kind, n, x, y, dxx, dxy, dyx, dyy, _, cos, sin = struct.unpack_from("<HHHHI6d3d", body)
        placed = []
        for column, row in itertools.product(range(columns), range(rows)):
            across, up = dxx * column + dyx * row, dxy * column + dyy * row
            for p, q in self.points(kind, n):
                p, q = p + across, (-q if flags & 1 else q) + up
                placed.append((x + cos * p - sin * q, y + sin * p + cos * q))
        return placed

    def cell(self, body):
        counts, numbers = struct.unpack_from("<4H", body, 42), [n for n, in struct.iter_unpack("<I", body[50:])]
        kinds = [kind for kind, count in zip((1, 2, 3, 4), counts) for _ in range(count)]
        return [point for kind, n in zip(kinds, numbers) for point in self.points(kind, n)]


def bounds(points):
    xs, ys = [x for x, _ in points], [y for _, y in points]
    return (min(xs), min(ys), max(xs), max(ys)) if points else None


def run(count=500):
    """On square sheets a computed box is the least around all items that are placed in it; without any there is none."""
    wrong, boxed, absent = [], 0, 0
    for seed in range(count):
        description = random_sheet(random.Random(seed))
        expanded = Expanded(cut(description))
        for kind, box_of in ((4, box_of_reference), (5, box_of_cell)):
            for n, body in enumerate(expanded.found[kind]):
                points = expanded.points(*struct.unpack_from("<HI", body, 6)) if kind == 4 else expanded.points(5, n)
                boxed, absent = boxed + (points != []), absent + (points == [])
                if box_of(body) != bounds(points):
                    wrong.append((seed, kind, n, box_of(body), bounds(points)))
    same("least boxes of %d random sheets" % count, wrong, [])
    same("of which many are there and many absent", (boxed > 4 * count, absent > count), (True, True))

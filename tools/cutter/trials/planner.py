"""Held against a built program plan: computed boxes, what cut.py leaves to plan, and the facts of docs/SHEETS.md."""
import math
import random
import struct

from cutter.trials.rounded import double
from cutter.trials.slanted import try_slanted
from cutter.trials.support import blocks_behind, file_text, printed, same


# ---- boxes of sheets that are not square

def random_turned(random):
    """Cells 0 to 2, each but the first of references to the one before, with fractions, magnifications and any angle."""
    def real(n):
        small = random.uniform(-n, n) * 2.0**random.randint(-60, 9)
        return repr(random.choice((random.uniform(-n, n), float(random.randint(-9, 9)), small)))

    def placed(cell):
        angle, factors = random.uniform(0, 7), (random.uniform(-2, 2), random.uniform(-2, 2))
        cos, sin = random.choice(((math.cos(angle), math.sin(angle)), factors, (0.0, -1.0)))
        return "reference source=cell:%d at=%s,%s columns=%d rows=%d dx=%s,%s dy=%s,%s reflect=%d mag=%r cos=%r sin=%r" % (
            cell, real(99), real(99), random.randint(1, 40), random.choice((1, 2, 32767)), real(9), real(9), real(9), real(9),
            random.randint(0, 1), random.choice((1.0, 0.5, random.uniform(0, 3))), cos, sin)
    points = ";".join("%s,%s" % (real(99), real(99)) for _ in range(3))
    cells = ["node layer=1 type=0 points=" + points, "cell nodes=0", placed(0), "cell references=0"]
    return "\n".join(cells + [placed(1), placed(1), "cell references=1,2"])


def planned_boxes(plan, root, depth, sheet):
    """The boxes of the proxies that the program prints."""
    query = "query root=%d depth=%d view=-1e300,-1e300,1e300,1e300 zoom=1\n" % (root, depth)
    proxies = [line.split()[2:] for line in printed(plan, query + sheet).splitlines() if line.startswith("proxy")]
    return [tuple(map(double, proxy)) for proxy in proxies]


def merged(found):
    sides = list(zip(*found))
    return min(sides[0]), min(sides[1]), max(sides[2]), max(sides[3])


def try_boxes(plan, count):
    """At depth 0 plan prints the root's own box, at depth 1 the boxes that it computes of the root's references."""
    wrong = []
    for seed in range(count):
        sheet = random_turned(random.Random(seed))
        for root in (1, 2):
            own, references = planned_boxes(plan, root, 0, sheet), planned_boxes(plan, root, 1, sheet)
            if len(references) != root or own != [merged(references)]:
                wrong.append((seed, root, own, references))
    same("boxes of %d random sheets, as the planner computes them" % count, wrong, [])


# ---- what the page says of plans: a query's words, a sheet, and what is printed, without the floats

TEXT = "text layer=1 type=0 at=5,5\n"
SHAPE = "batch layer=1 type=0 elements=1 box=0,0,%s,%s\n"
NEAR = "root=0 depth=8 view=0,0,9,9 zoom=1"
ROOT_1 = "root=1 depth=8 view=0,0,9,9 zoom=1"
FACTS = [
    ("a reference without a source box", ROOT_1, TEXT + "cell texts=0\nreference source=cell:0 at=0,0 box=none\ncell references=0",
     "totals 1 0 0 0 0 0 0"),
    ("a cell of 40 by 40 pixels", "root=1 depth=8 view=0,0,99,99 zoom=1",
     SHAPE % (40, 40) + "cell batches=0\nreference source=cell:0 at=0,0\ncell references=0", "batch 0, totals 2 1 0 0 0 0 0"),
    ("the same with 200 draw units that have no box", "root=1 depth=8 view=0,0,99,99 zoom=1",
     SHAPE % (40, 40) + "reference source=cell:9 at=0,0 columns=20 rows=10\ncell batches=0 references=0\n"
     "reference source=cell:0 at=0,0\ncell references=1", "proxy 0, totals 1 0 0 0 0 0 0"),
    ("the same with 200 empty cells in their place", "root=2 depth=8 view=0,0,99,99 zoom=1",
     SHAPE % (40, 40) + "cell\nreference source=cell:0 at=0,0 columns=20 rows=10\ncell batches=0 references=0\n"
     "reference source=cell:1 at=0,0\ncell references=1", "batch 0, totals 2 1 0 0 0 0 0"),
    ("a reference to a cell without a box", ROOT_1, TEXT + "cell box=none texts=0\nreference source=cell:0 at=0,0\ncell references=0",
     "totals 1 0 0 0 0 0 0"),
    ("the same with a source box by hand", ROOT_1,
     TEXT + "cell box=none texts=0\nreference source=cell:0 at=0,0 box=0,0,50,50\ncell references=0", "text 0, totals 2 1 0 0 0 0 0"),
    ("a root without a box", NEAR, TEXT + "cell box=none texts=0", "text 0, totals 1 1 0 0 0 0 0"),
    ("at depth 0", NEAR.replace("depth=8", "depth=0"), TEXT + "cell box=none texts=0", "totals 0 0 0 0 0 0 0"),
    ("a root with a box, at depth 0", NEAR.replace("depth=8", "depth=0"), TEXT + "cell texts=0", "proxy 0, totals 0 0 0 0 0 0 0"),
    ("a box that is too small", NEAR, TEXT + "cell box=20,20,30,30 texts=0", "totals 0 0 0 0 0 0 0"),
    ("a missing cell", NEAR, "reference source=cell:7 at=0,0\ncell references=0", "totals 1 0 0 0 0 0 0"),
    ("a missing cell with a box", NEAR, "reference source=cell:7 at=0,0 box=0,0,5,5\ncell references=0",
     "proxy 7, totals 1 0 0 0 0 0 0"),
    ("a lone reference under a pixel", ROOT_1.replace("zoom=1", "zoom=0.01"),
     SHAPE % (9, 9) + "cell batches=0\nreference source=cell:0 at=0,0\ncell references=0", "proxy 0, totals 1 0 0 0 0 0 0"),
    ("a batch on one point", NEAR.replace("zoom=1", "zoom=1e30"), SHAPE % (0, 0) + "cell batches=0", "totals 1 0 0 0 0 1 0"),
    ("a batch of no width", NEAR, SHAPE % (0, 1) + "cell batches=0", "batch 0, totals 1 1 0 0 0 0 0"),
    ("number 4, columns", NEAR, "reference source=cell:0 at=0,0 columns=32768", "refused 4 0"),
    ("number 4, cell FFFFFFFF", NEAR, "reference source=cell:4294967295 at=0,0", "refused 4 0"),
    ("number 7", NEAR, "cell\n" * 4097, "refused 7 0"),
    ("number 8", NEAR.replace("view=0,0,9,9", "view=9,0,0,9"), "cell", "refused 8 0"),
    ("number 9", NEAR.replace("zoom=1", "zoom=0"), "cell", "refused 9 0"),
    ("number 10", NEAR.replace("depth=8", "depth=49"), "cell", "refused 10 0"),
    ("the greatest depth, with as many cells as may be", NEAR.replace("depth=8", "depth=48"), "cell\n" * 4096, "totals 1 0 0 0 0 0 0"),
]


def shortened(text):
    """A plan's lines without their floats, parted by commas."""
    lines = [line.split() for line in text.splitlines()]
    return ", ".join(" ".join(words if words[0] in ("totals", "refused") else words[:2]) for words in lines)


def try_facts(plan):
    for what, query, sheet, expected in FACTS:
        same(what, shortened(printed(plan, "query %s\n%s" % (query, sheet))), expected)
    many = TEXT + "cell %s texts=" + ",".join(["0"] * 10001)
    for words, last in (("", "proxy 0, totals 1 10000 0 0 0 0 0"), ("box=none", "text 0, totals 1 10000 0 0 0 0 0")):
        lines = printed(plan, "query %s\n%s" % (NEAR, many % words)).splitlines()[-2:]
        same("10,001 texts in a cell with %s" % words, shortened("\n".join(lines)), last)


def try_zoom(plan):
    """A batch and a cell of one unit, a text, a point, and a reference to the text, at zooms around the greatest f32."""
    sheet = (SHAPE % (1, 1) + SHAPE % (1, 1) + TEXT.replace("5,5", "1,1") + "node layer=2 type=0 points=1,1\n"
             "cell batches=1\nreference source=cell:0 at=0,0\nreference source=text:0 at=0,0\n"
             "cell batches=0 texts=0 nodes=0 references=0,1")
    listed, skipped = "batch 0, text 0, point 2, batch 1, text 0, totals 2 5 0 0 0 0 0", "text 0, point 2, text 0, totals 1 3 0 1 0 1 0"
    infinite = 2.0**128 - 2.0**103
    zooms = {2.0**64: listed, 2.0**100: listed, 2.0**127: listed, math.nextafter(infinite, 0): listed,
             infinite: skipped, 2.0**128: skipped, 1e300: skipped}
    for zoom, expected in zooms.items():
        found = printed(plan, "query root=1 depth=8 view=0,0,9,9 zoom=%r\n%s" % (zoom, sheet))
        same("zoom %r" % zoom, shortened(found), expected)


def try_page(plan):
    """The page shows the plans of two samples whole, and behind the second the Rust's, which is ours at depth 2."""
    page, sites = file_text("docs", "SHEETS.md"), file_text("samples", "sites.txt")
    for sample, place, description in (("outcomes.txt", 0, file_text("samples", "outcomes.txt")), ("sites.txt", 0, sites),
                                       ("sites.txt", 1, sites.replace("depth=8", "depth=2"))):
        found = "".join("    " + line for line in printed(plan, description).splitlines(keepends=True))
        same("%s, plan %d in docs/SHEETS.md" % (sample, place + 1), found, blocks_behind(page, sample)[place])


def try_sites(plan):
    """The field of samples/sites.txt at two more zooms: its sites of 3 pixels are boxed one by one, those of 24 entered."""
    sample = file_text("samples", "sites.txt")
    for zoom, proxies, totals in (("1", 4096, "totals 8 12 0 0 0 0 0"), ("8", 0, "totals 4104 12 0 0 0 0 0")):
        lines = printed(plan, sample.replace("zoom=0.25", "zoom=" + zoom)).splitlines()
        same("boxed sites at zoom " + zoom, sum(line.startswith("proxy 0 ") for line in lines), proxies)
        same("totals at zoom " + zoom, lines[-1], totals)


def try_nodes(plan):
    """The grid of nodes that runs out: the end of its plan as the page shows it, and the same where the limit falls in the last
    member, the 6,667th; at the end of the grid there is no box, and at a member's end the whole reference's alone."""
    sample = file_text("samples", "nodes.txt")
    lines = printed(plan, sample).splitlines(keepends=True)
    same("points of nodes.txt", sum(line.startswith("point 20 1 ") for line in lines), 20000)
    same("nodes.txt, the end in docs/SHEETS.md", "".join("    " + line for line in lines[20000:]),
         blocks_behind(file_text("docs", "SHEETS.md"), "nodes.txt")[0])
    wide = sample.replace("3600,3000", "4000,5000")
    whole = "proxy none %s" % " ".join(struct.pack(">d", side).hex() for side in (0, 0, 58 * 40 + 30, 112 * 40 + 30))
    even = wide.replace("0,0;30,0;0,30", "0,0;30,0;0,30;30,30")
    lines = printed(plan, wide.replace("columns=90 rows=75", "columns=59 rows=113")).splitlines()
    same("a limit in the last member", [len(lines) - 20000, lines[20001]], [3, whole])
    for what, members, proxies in (("at the end", "columns=50 rows=100", 0), ("at a member's end", "columns=51 rows=100", 1)):
        lines = printed(plan, even.replace("columns=90 rows=75", members)).splitlines()
        same("a limit " + what, [line.split()[:2] for line in lines[20000:]], [["proxy", "none"]] * proxies + [["totals", "1"]])


def try_full(plan):
    """The list of proxies that is full: the end of its plan as the page shows it. Then fields of 5,000 marks: 20 fill the list, and a
    further field and the name behind the fields each call for one proxy more."""
    sample = file_text("samples", "full.txt")
    lines = printed(plan, sample).splitlines(keepends=True)
    same("proxies of full.txt", sum(line.startswith("proxy 0 ") for line in lines), 100000)
    same("full.txt, the end in docs/SHEETS.md", "".join("    " + line for line in lines[99999:]),
         blocks_behind(file_text("docs", "SHEETS.md"), "full.txt")[0])
    half = sample.replace("4200,1000", "13000,1000").replace("columns=100 rows=80", "columns=100 rows=50")
    for fields, listed, dropped in ((20, "1", 0), (20, "1,2", 1), (21, "1", 1), (21, "1,2", 2)):
        filled = half.replace("columns=7 rows=2", "columns=%d rows=1" % fields).replace("references=1,2", "references=" + listed)
        lines = printed(plan, filled).splitlines()
        same("%d fields, references %s" % (fields, listed), [len(lines), lines[-1]], [100001, "totals 21 0 0 0 0 0 %d" % dropped])


def try_deep(plan):
    """The sheet that nests deeply, to each depth: as many stages as the depth, and a box where the depth ends before the last. The ends
    of two plans as the page shows them."""
    sample, shown = file_text("samples", "deep.txt"), blocks_behind(file_text("docs", "SHEETS.md"), "deep.txt")
    plans = {depth: printed(plan, sample.replace("depth=48", "depth=%d" % depth)).splitlines(keepends=True) for depth in range(49)}
    for depth, lines in plans.items():
        stages = min(depth, 40)
        rest = ["proxy %d" % (39 - depth)] if depth < 40 else ["text 0"]
        found = [" ".join(line.split()[:2]) for line in lines[:-1]] + [lines[-1].strip()]
        objects = stages + (depth >= 40)
        same("deep.txt at depth %d" % depth, found, ["batch 0"] * stages + rest + ["totals %d %d 0 0 0 0 0" % (stages, objects)])
    for place, depth, count in ((0, 48, 3), (1, 32, 2)):
        same("deep.txt at depth %d in docs/SHEETS.md" % depth, "".join("    " + line for line in plans[depth][-count:]), shown[place])


def run(plan):
    try_boxes(plan, 100)
    try_facts(plan)
    try_zoom(plan)
    try_page(plan)
    try_sites(plan)
    try_nodes(plan)
    try_full(plan)
    try_deep(plan)
    try_slanted(plan)

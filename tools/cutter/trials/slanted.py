"""Exact placement in fractions, document 01's steps without their rounding: how far what a plan lists of samples/slanted.txt is off."""
from fractions import Fraction

from cutter.trials.rounded import double
from cutter.trials.support import blocks_behind, file_text, printed, same


def member(columns, rows, spacings, origin, reflected, magnification, turn):
    """The placements of a reference's members, column by column: x axis, y axis and translation."""
    (cos, sin), (ax, ay), (bx, by) = turn, *spacings
    y_axis = (sin, -cos) if reflected else (-sin, cos)
    for column in range(columns):
        for row in range(rows):
            x, y = ax * column + bx * row, ay * column + by * row
            yield (cos * magnification, sin * magnification), tuple(c * magnification for c in y_axis), (
                origin[0] + x * cos - y * sin, origin[1] + x * sin + y * cos)


def moved(placement, point):
    (xx, xy), (yx, yy), (tx, ty) = placement
    return xx * point[0] + yx * point[1] + tx, xy * point[0] + yy * point[1] + ty


def references(description):
    """The sample's references, the outermost first, with their numbers as the nearest floats and these as fractions."""
    for line in reversed([line for line in description.splitlines() if line.startswith("reference")]):
        words = dict(word.split("=") for word in line.split()[1:])
        pair = lambda word: tuple(Fraction(float(number)) for number in words.get(word, "0,0").split(","))
        yield (int(words.get("columns", 1)), int(words.get("rows", 1)), (pair("dx"), pair("dy")), pair("at"), words.get("reflect") == "1",
               Fraction(float(words.get("mag", 1))), (Fraction(float(words["cos"])), Fraction(float(words["sin"]))))


def positions(outer, point):
    """Where the members of the references, the outermost first, put a point; the outermost member varies slowest."""
    if not outer:
        return [point]
    within = positions(outer[1:], point)
    return [moved(placed, position) for placed in member(*outer[0]) for position in within]


def try_slanted(plan):
    """What is listed is near, and some of it is not exact; the page shows the first member's lines and the largest error."""
    description, page = file_text("samples", "slanted.txt"), file_text("docs", "SHEETS.md")
    lines = printed(plan, description).splitlines(keepends=True)
    outer = list(references(description))
    # a member lists its text and then its node's two points
    exact = zip(*(positions(outer, (Fraction(x), Fraction(y))) for x, y in ((500, 40), (0, 0), (1000, 0))))
    listed = [tuple(Fraction(double(word)) for word in line.split()[-2:]) for line in lines[:-1]]
    errors = [abs(a - b) for found, there in zip(listed, (p for m in exact for p in m)) for a, b in zip(found, there)]
    same("records of slanted.txt", len(listed), 18)
    same("coordinates of slanted.txt", len(errors), 36)
    same("those not within 1/64", sum(error > Fraction(1, 64) for error in errors), 0)
    same("those that are exact", sum(error == 0 for error in errors), 0)
    shown = blocks_behind(page, "slanted.txt")
    same("slanted.txt, its first member in docs/SHEETS.md", "".join("    " + line for line in lines[:3]), shown[0])
    same("its largest error in docs/SHEETS.md", "at most %.1f × 10^-12" % (float(max(errors)) * 1e12) in page, True)

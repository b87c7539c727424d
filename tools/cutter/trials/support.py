"""What the trials of tools/cut.py share: the count of what passed, runs of cut.py and of plan, and a reader of sheets of its own."""
import itertools
import os
import struct
import subprocess
import sys

from cutter.records import cut

ROOT = os.path.dirname(os.path.dirname(os.path.dirname(os.path.dirname(os.path.abspath(__file__)))))
CUT = os.path.join(ROOT, "tools", "cut.py")
QUERY = "query root=0 depth=1 view=0,0,9,9 zoom=1\n"
tally = {"passed": 0, "failed": 0}


def same(what, found, expected):
    if found == expected:
        tally["passed"] += 1
    else:
        tally["failed"] += 1
        print("%s: not as expected\n  expected %.600r\n  found    %.600r" % (what, expected, found))


def ran(*arguments, **more):
    """Status, standard output and standard error of cut.py."""
    done = subprocess.run([sys.executable, CUT, *arguments], stderr=subprocess.PIPE, **{"stdout": subprocess.PIPE, **more})
    return done.returncode, done.stdout, done.stderr.decode()


def file_text(*path):
    with open(os.path.join(ROOT, *path), encoding="utf-8") as file:
        return file.read()


# ---- a built program plan, and what the pages show of it

def printed(plan, description):
    return subprocess.run([plan], input=cut(description), stdout=subprocess.PIPE, check=True).stdout.decode()


def blocks_behind(page, sample):
    """The page's indented blocks behind the command that plans a sample, in order."""
    behind = page.split("    tools/cut.py samples/%s | crates/plan/out/plan" % sample, 1)[1].split("\n", 1)[1]
    groups = itertools.groupby(behind.splitlines(keepends=True), lambda line: line.startswith("    "))
    return ["".join(lines) for indented, lines in groups if indented]


# ---- a reader of sheets, apart from the cutter's own tables

def records(sheet):
    """A sheet's records by kind, each its body."""
    found, at = {kind: [] for kind in (1, 2, 3, 4, 5, 20)}, 0
    while at < len(sheet):
        length, kind = struct.unpack_from("<IH", sheet, at)
        found[kind].append(sheet[at + 6:at + length])
        at += length
    return found


def box_of_cell(body):
    flags = struct.unpack_from("<H", body)[0]
    return struct.unpack_from("<4d", body, 10) if flags else (None if body[10:42] == bytes(32) else "a box without its flag")


def units_of_cell(body):
    return struct.unpack_from("<Q", body, 2)[0]


def box_of_reference(body):
    flags = struct.unpack_from("<H", body, 4)[0]
    return struct.unpack_from("<4d", body, 84) if flags & 2 else (None if body[84:] == bytes(32) else "a box without its flag")


def boxes(description):
    """The boxes of all references, and of all cells."""
    found = records(cut(description))
    return [box_of_reference(body) for body in found[4]], [box_of_cell(body) for body in found[5]]

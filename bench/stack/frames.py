#!/usr/bin/env python3
"""frames.py ARCHIVE DEPTH: the most stack that a call of the static library can take at a depth, by its machine code.

Reads objdump's listing: whom each function calls, and what it has pushed, subtracted or written below the stack pointer by then.
There are two cycles of calls, the visits and the draw units. In both the depth falls by one from a reference to its source, and a
reference at depth 1 visits none. What memcpy and memset take is not counted.
"""
import functools
import re
import subprocess
import sys

ENTRIES = ("scene_open", "scene_plan", "scene_plan_with_finder")
# A call from one of these into its own cycle is one depth below.
REFERENCES = ("visits::visit_reference", "units::reference_draw_units", "units::numbered_draw_units")


def listing(archive):
    """The instructions of each function: address, operation, operands, and the name to be linked there."""
    text = subprocess.run(["objdump", "-dr", "--no-show-raw-insn", archive], stdout=subprocess.PIPE, check=True).stdout.decode()
    functions, body = {}, []
    for line in text.splitlines():
        head = re.match(r"[0-9a-f]+ <(.+)>:$", line)
        step = re.match(r"\s*([0-9a-f]+):\t([a-z]\S*)\s*(.*)$", line)
        link = re.match(r"\s*[0-9a-f]+: R_X86_64_(?:PLT32|PC32)\s+(\S+?)(?:[-+]0x[0-9a-f]+)?$", line)
        if head:
            body = functions.setdefault(head[1], [])
        elif step:
            body.append([int(step[1], 16), step[2], step[3], None])
        elif link and body:
            body[-1][3] = link[1].removeprefix(".text.")
    return functions


def moved(operation, operands):
    """By how much an instruction lowers the stack pointer."""
    if operation.startswith(("push", "pop")):
        return 8 if operation.startswith("push") else -8
    if not operands.endswith(",%rsp") or operation.startswith(("mov", "cmp", "test")):
        return 0
    number = re.match(r"\$(-?0x[0-9a-f]+|-?\d+),", operands)
    if number is None or operation.rstrip("q") not in ("sub", "add"):
        sys.exit("the stack pointer is set in a way that is not read here: %s %s" % (operation, operands))
    return int(number[1], 0) * (1 if operation.startswith("sub") else -1)


def calls_of(body):
    """Each call with the stack in use at it, and the most in use, by following every jump. Where one is computed, what no other way
    leads to starts with the stack of that jump."""
    places = {step[0]: place for place, step in enumerate(body)}
    used, calls, computed, pending, most = {}, set(), 0, [(0, 0)], 0
    while pending:
        place, now = pending.pop()
        while place < len(body) and place not in used:
            _, operation, operands, linked = body[place]
            used[place] = now = now + moved(operation, operands)
            target = re.match(r"([0-9a-f]+) <(.+)>", operands)
            most = max([most, now] + [now + int(below, 16) for below in re.findall(r"-0x([0-9a-f]+)\(%rsp", operands)])
            if operation.startswith("call"):
                calls.add((now, linked or target[2]))
            elif operation.startswith("j") and linked:
                calls.add((now - 8, linked))  # the return address is passed on
            elif operation.startswith("j") and target:
                pending.append((places[int(target[1], 16)], now))
            elif operation.startswith("jmp"):
                computed = now
            if operation.startswith(("jmp", "ret", "ud2")):
                break
            place += 1
        if not pending:
            pending = [(place, computed) for place in range(len(body)) if place not in used][:1]
    return calls, most


class Archive:
    def __init__(self, functions):
        found = {name: calls_of(body) for name, body in functions.items()}
        self.calls = {name: sorted(call for call in calls if call[1] in found) for name, (calls, _) in found.items()}
        self.own = {name: own for name, (_, own) in found.items()}

    @functools.lru_cache(None)
    def reaches(self, name):
        """All that a function calls, directly or not."""
        met, left = set(), [name]
        while left:
            more = {callee for _, callee in self.calls[left.pop()]} - met
            met |= more
            left += more
        return met

    @functools.lru_cache(None)
    def most(self, name, depth):
        """The most bytes below a function's return address, and the functions on the way there."""
        best = self.own[name], (name,)
        for used, callee in self.calls[name]:
            below = depth - (name in REFERENCES and name in self.reaches(callee))
            if below > 0:
                more, way = self.most(callee, below)
                best = max(best, (used + 8 + more, (name,) + way))
        return best

    def level(self, *cycle):
        """The bytes of one turn of a cycle of calls."""
        follows = zip(cycle, cycle[1:] + cycle[:1])
        return sum(8 + max(used for used, callee in self.calls[name] if callee == after) for name, after in follows)


def main(archive, depth):
    found = Archive(listing(archive))
    cell, inner, units = "visits::visit_cell", *REFERENCES[:2]
    print("bytes a level by the frames: a cell %d, an inner reference %d, draw units %d" % (
        found.level(cell, inner), found.level(inner), found.level(units, "units::cell_draw_units")))
    for entry in ENTRIES:
        most, way = found.most(entry, depth)
        names = [(name.split("::")[-1], way.count(name)) for name in dict.fromkeys(way)]
        print("%s at depth %d: at most %d bytes by the frames: %s" % (
            entry, depth, most, ", ".join("%d x %s" % (count, name) if count > 1 else name for name, count in names)))


main(sys.argv[1], int(sys.argv[2]))

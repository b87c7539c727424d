#!/usr/bin/env python3
"""respell: brings this repository's own definitions and lemmas to the toolchain's spelling: words in snake case.

usage: tools/respell.py [FOLDER]     (the repository's top by default; after the toolchain's own port.py, once)

A definition, lemma, constructor or field that this repository declares in specs/ or proofs/ and that begins with a small
letter is written in snake case: `uintAt` becomes `uint_at`, `abs-of-pattern` becomes `abs_of_pattern`. A dash stays where it
joins the names of two definitions, as in `length-uint_bytes`. Types and facts keep their capitals, what the toolchain's
libraries declare keeps its name, and so does all that Rust code, strings, inputs and outputs name. Files of crates/ are
turned by what each declares and imports; of pages, only code spans are turned. A line that begins `look:` names a file in
which a new name was there already. Run it once.
"""
import pathlib
import re
import sys

TOP = pathlib.Path(sys.argv[1] if len(sys.argv) > 1 else pathlib.Path(__file__).resolve().parent.parent)
OWN = {p.name for p in (TOP / "crates").iterdir() if p.is_dir()}
PART = r"[^\s(){}\[\];.,:@\"«»`]+"
DECLARED = re.compile(rf"^(?:module _ .*|(?:(?:unfoldable|abbrev|pub|data|record|ruleset|ghost) +)*({PART})(?: +[^:\n]*?)? [:=](?: |$))")
INSIDE = re.compile(rf"^(?:  )+(?:(?:unfoldable|abbrev|pub|data|record) +)*({PART})(?: +[^:\n]*?)? :(?: |$)")
USE = re.compile(rf"^ *(?:ghost )?(?:pub )?use ((?:{PART}\.)*{PART})(?:\.\{{([^}}]*)\}}| as ({PART}))?;?", re.M)
WORD = re.compile(rf"(?:{PART}\.)*{PART}")
GOAL = re.compile(r" : (?:tie\.|statement\b|goal\.)")
# Names that the toolchain's libraries have, or that this repository defines, between which a dash stays.
LIBRARY = set("length take drop set sets map fold append add mul pow get_or to_bits of_bits".split())
TURNED = {"getD": "get_or"}  # what the toolchain's own script turned in other places


def snake(word):
    word = re.sub(r"BBox", "Bbox", word)
    word = re.sub(r"(?<=[a-z0-9])([A-Z])", r"_\1", word)
    return re.sub(r"([A-Z])(?=[A-Z][a-z])", r"\1_", word).lower()


def read(path):
    return path.read_text(encoding="utf-8")


def antt():
    return sorted(p for p in TOP.glob("crates/*/*/**/*.antt") if "out" not in p.parts[len(TOP.parts) :])


def declared(path):
    for line in read(path).splitlines():
        found = INSIDE.match(line) if line.startswith("  ") else None if line[:1] in " -" else DECLARED.match(line)
        if found and found[1] and not GOAL.search(line):
            yield found[1]


def spelled(name, definitions):
    parts = [TURNED.get(p, p) for p in name.split("-")]
    new = [snake(p) for p in parts]
    out = new[0]
    for i in range(1, len(parts)):
        joins = all(p in definitions or p in LIBRARY for p in parts[i - 1 : i + 1])
        out += ("-" if joins else "_") + new[i]
    return out


def fields(path):
    kind = None
    for line in read(path).splitlines():
        if line and line[0] not in " -":
            kind = re.match(r"(?:(?:pub|unfoldable) )*(record|data) ", line)
        found = INSIDE.match(line)
        if found and found[1] and kind and kind[1] == "record":
            yield found[1]


def table():
    files = {p: list(declared(p)) for p in antt()}
    definitions = {n for p, names in files.items() if "specs" in p.parts for n in names if re.fullmatch(r"[a-z]\w*[A-Z_]\w*", n)}
    every = {spelled(n, definitions) for p, names in files.items() if "specs" in p.parts for n in names if "-" not in n and not n[0].isupper()}
    rows, inside = {}, {n for p in files for n in fields(p)}
    for names in files.values():
        for n in names:
            if not re.match(r"[a-zμ]", n) or not re.search(r"[A-Z-]", n) or re.search(r"(?:^|-)[A-Z]|[◌*+∸]", n):
                continue
            new = spelled(n, definitions)
            if "-" in n and new in every and n not in inside:
                new += "_lem"
            if new != n:
                rows[n] = new
    return files, rows, inside & set(rows)


def known(text, here, rows):
    """The names of the table that a file means by their bare spelling, those it takes from elsewhere, and its aliases of own modules."""
    own, other, aliases = set(here), set(), {"Rattle"}
    for head, names, alias in USE.findall(text):
        mine = head.split(".")[0] == "Rattle" and head.split(".")[1:2] and head.split(".")[1] in OWN
        if alias and mine and not head.endswith((".Tie", ".Statement", ".Reads")):
            aliases.add(alias)
        for item in (n.strip() for n in names.split(",") if n.strip()):
            (own if mine else other).add(item.split(" as ")[0])
            if " as " in item:
                (own if mine else other).add(item.split(" as ")[1])
    return {n for n in own if n in rows}, other - own, aliases


def turn(text, own, other, aliases, rows, inside):
    def word(found):
        parts = found[0].split(".")
        for i, part in enumerate(parts):
            camel = part in rows and ("-" not in part or i > 0 and part in inside and parts[0] != "tie")
            if part not in rows or part in other and i == 0:
                continue
            if camel or i == 0 and part in own or i > 0 and parts[0] in aliases:
                if i > 0 and parts[0] == "Rattle" and parts[1] not in OWN:
                    continue
                parts[i] = rows[part]
        return ".".join(parts)

    return WORD.sub(word, text)


def crate_file(path, here, rows, inside):
    text = read(path)
    own, other, aliases = known(text, here, rows)
    words = set(re.findall(PART, text))
    for n in sorted(own & words):
        if rows[n] in words and rows[n] not in own:
            print(f"look: {path.relative_to(TOP)}: {n} becomes {rows[n]}, which the file has")
    return text, turn(text, own, other, aliases, rows, inside)


def spans(text, rows, inside):
    return re.sub(r"`[^`\n]+`", lambda it: turn(it[0], set(rows), set(), {"Rattle"}, rows, inside), text)


def main():
    files, rows, inside = table()
    by_new = {}
    for old, new in sorted(rows.items()):
        by_new.setdefault(new, []).append(old)
    for new, olds in by_new.items():
        if len(olds) > 1:
            print(f"look: {' and '.join(olds)} become {new}")
    for path in antt() + sorted(TOP.glob("crates/*/src/**/*.rt")):
        old, new = crate_file(path, files.get(path, []), rows, inside)
        if new != old:
            path.write_text(new, encoding="utf-8")
    for path in sorted(TOP.glob("crates/*/must-fail/**/*.edit")):
        old = read(path)
        new = turn(old, set(rows), set(), {"Rattle"}, rows, inside)
        if new != old:
            path.write_text(new, encoding="utf-8")
    for path in [TOP / "README.md", *sorted(TOP.glob("docs/**/*.md")), *sorted(TOP.glob("*/*.md"))]:
        old = read(path)
        new = spans(old, rows, inside)
        if new != old:
            path.write_text(new, encoding="utf-8")
    print(f"{len(rows)} names, {len(by_new)} spellings")


main()

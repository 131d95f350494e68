#!/usr/bin/env python3
"""Spells this repository's own definitions and lemmas in snake case: `nextArrival` becomes `next_arrival`, `next-arrives` becomes `next_arrives`.

usage: snake_names.py [--check]      at the top of the repository, once

It turns what the .antt files of specs/ and proofs/ declare (but for the goals of a function's Proof.antt, whose names Rattle makes),
and its uses in .antt and .rt files, must-fail edits and documents. Functions of src/, exported names, strings, inputs and outputs stay.
A lemma that would have a definition's name ends in `_lem`. --check writes nothing and lists the names that would meet another in a file.
"""

import collections
import pathlib
import re
import sys

ROOT = pathlib.Path(".")
TOKEN = r"[^\s(){}\[\].;,@\"«»`]+"
HEAD = re.compile(r"( *)((?:pub |abbrev |unfoldable |opaque )*)(%s)((?: \{[^{}\n]*\})*) :(?: +(\S+))?" % TOKEN)
PIECE = re.compile(r'"(?:[^"\\\n]|\\.)*"|--[^\n]*|%s' % TOKEN)
USE = re.compile(r"(?m)^(?:ghost )?use ([\w.]+)\.\{([^}]*)\}")
# names that would meet a library's, or that are both a lemma's and a record field's: what they get instead
OTHER = {"in-float": "in_float_lem", "is-nan": "is_nan_lem", "stream-count": "stream_count", "pts-dts-flags": "pts_dts_flags"}
# lemmas that are in snake case already and would now meet a definition: (module, name)
MEET = [
    ("Rattle.transport.proofs.Ways", "fits_in"),
    ("Rattle.recording.proofs.Examples", "all_hold"),
    ("Rattle.model_bounds.proofs.Chain", "end_step"),
    ("Rattle.words.proofs.ReadBack", "stream_at"),
    ("Rattle.scanner.proofs.Collect", "end_step"),
    ("Rattle.branch.proofs.VideoTurns", "settled_at"),
    ("Rattle.model_bounds.proofs.MainStep", "with_open"),
]


def snake(name):
    name = name.replace("′", "'")
    if re.match(r"[a-z]", name):
        name = re.sub(r"(?<=[a-z0-9])(?=[A-Z])", "_", name).lower()
    return name.replace("-", "_")


def antt_files():
    for kind in ("specs", "proofs"):
        yield from sorted(ROOT.glob(f"crates/*/{kind}/**/*.antt"))


def declared():
    """The names that antt files declare and the fields of their records, each with its files."""
    names, fields = collections.defaultdict(set), collections.defaultdict(set)
    for path in antt_files():
        goals = path.name in ("Proof.antt", "Answers.antt", "Invariants.antt")
        in_record = False
        for line in path.read_text(encoding="utf-8").split("\n"):
            if re.match(r"(pub )?record ", line):
                in_record = True
                continue
            if line and not line.startswith((" ", "--")):
                in_record = False
            m = HEAD.match(line)
            if not m or not re.match(r"[A-Za-z]", m.group(3)):
                continue
            indent, _, name, _, of = m.groups()
            if goals and of and re.match(r"(tie|goal)\.", of):
                continue
            (fields if indent and in_record else names)[name].add(str(path))
    return names, fields


def tables():
    names, fields = declared()
    definitions = {snake(n) for n, at in names.items() if "-" not in n and any("/specs/" in p for p in at)}
    definitions |= {snake(n) for n in names if re.match(r"[a-z][a-z0-9]*[A-Z]", n)}
    table = {}
    for name in names:
        # a dash behind a type's name stays
        if name.endswith("-spec") or re.match(r"[A-Z]", name):
            continue
        new = snake(name)
        if name in OTHER:
            new = OTHER[name]
        elif "-" in name and new in definitions:
            new += "_lem"
        if new != name:
            table[name] = new
    return table, {n: snake(n) for n in fields if snake(n) != n}


def of_libraries(text):
    """What a file imports of no crate of this repository."""
    crates = {p.name for p in ROOT.glob("crates/*")}
    uses = [m for m in USE.finditer(text) if not (m.group(1).startswith("Rattle.") and m.group(1).split(".")[1] in crates)]
    return {n.strip() for m in uses for n in m.group(2).split(",")}


def modules_named(text):
    """The names by which a file calls modules of this repository, as `laws` of `use Rattle.syntax.proofs.AdaptationField as laws`."""
    crates = {p.name for p in ROOT.glob("crates/*")}
    uses = re.findall(r"(?m)^use Rattle\.(\w+)\.[\w.]+ as ([\w'-]+)$", text)
    return {name for crate, name in uses if crate in crates}


def turn(text, table, fields):
    kept, modules = of_libraries(text), modules_named(text)
    table = {n: v for n, v in table.items() if n not in kept}
    out, last = [], 0
    for m in PIECE.finditer(text):
        piece = m.group(0)
        if piece.startswith("--"):
            piece = re.sub(r"`([^`\n]*)`", lambda s: "`" + turn(s.group(1), table, fields) + "`", piece)
        elif not piece.startswith('"'):
            before = text[max(0, m.start() - 80) : m.start()]
            head = re.search(r"([\w'-]+)\.\Z", before)
            plain = table if not re.search(r"[\w)'-]\.\Z", before) or head and head.group(1) in modules else {}
            piece = plain.get(piece, fields.get(piece, piece))
        out += [text[last : m.start()], piece]
        last = m.end()
    return "".join(out) + text[last:]


def turn_code(text, table, fields):
    """Rust with clauses: camel case anywhere outside strings, names with a dash where a `ghost use` has them."""
    cited = {n.strip() for m in USE.finditer(text) for n in m.group(2).split(",")}
    mine = {n: v for n, v in table.items() if "-" not in n or n in cited}
    own = {n: v for n, v in fields.items() if "-" not in n}
    return re.sub(
        r'"(?:[^"\\\n]|\\.)*"|[A-Za-z_][\w\'-]*',
        lambda m: m.group(0) if m.group(0)[0] == '"' else mine.get(m.group(0), own.get(m.group(0), m.group(0))),
        text,
    )


def turn_page(text, table, fields):
    both = {**fields, **table}
    word = re.compile(r"[A-Za-z][\w'-]*")

    def line(t):
        if t.startswith("|"):
            cells = t.split(" | ")
            cells[1:] = [word.sub(lambda m: both.get(m.group(0), m.group(0)), c) for c in cells[1:]]
            t = " | ".join(cells)
        return re.sub(r"`[^`\n]*`", lambda m: word.sub(lambda w: both.get(w.group(0), w.group(0)), m.group(0)), t)

    return "\n".join(line(t) for t in text.split("\n"))


def turn_edit(text, table, fields):
    src = re.match(r"file: src/", text) is not None
    rows = []
    for row in text.split("\n"):
        m = re.match(r"(old|new): ", row)
        rows.append(row[: m.end()] + (turn_code if src else turn)(row[m.end() :], table, fields) if m else row)
    return "\n".join(rows)


def meet():
    """Gives the lemmas of MEET their ending, in their own file and where they are imported."""
    for path in antt_files():
        text = path.read_text(encoding="utf-8")
        own = ".".join(("Rattle",) + path.with_suffix("").parts[1:])
        back = {n: n + "_lem" for module, n in MEET if module == own}
        for m in USE.finditer(text):
            here = {n.strip() for n in m.group(2).split(",")}
            back.update({n: n + "_lem" for module, n in MEET if module == m.group(1) and n in here})
        if back:
            path.write_text(turn(text, back, {}), encoding="utf-8")


def falls_together(table):
    for path in antt_files():
        text = path.read_text(encoding="utf-8")
        here = {m.group(0) for m in PIECE.finditer(text) if not text[: m.start()].endswith(".") and m.group(0)[0] not in '"-'}
        for old in sorted(here):
            if table.get(old) in here:
                print(f"{path}: {old} and {table[old]}")
    for path in sorted(ROOT.glob("crates/*/src/**/*.rt")):
        text = path.read_text(encoding="utf-8")
        cited = {n.strip() for m in USE.finditer(text) for n in m.group(2).split(",")}
        for old in sorted(cited):
            new = table.get(old)
            if new and re.search(r"\b%s: (?!:)|let (?:mut )?%s\b|\b%s," % (new, new, new), re.sub(r"(?m)^ghost use .*$", "", text)):
                print(f"{path}: {old} and {new}")


def main():
    table, fields = tables()
    if "--check" in sys.argv:
        falls_together(table)
        return
    meet()
    files = [(p, turn) for p in antt_files()]
    files += [(p, turn_code) for p in sorted(ROOT.glob("crates/*/src/**/*.rt"))]
    files += [(p, turn_edit) for p in sorted(ROOT.glob("crates/*/must-fail/*.edit"))]
    files += [(p, turn_page) for p in [ROOT / "README.md", *sorted(ROOT.glob("docs/*.md"))] if p.name != "PORT.md"]
    for path, by in files:
        text = path.read_text(encoding="utf-8")
        new = by(text, table, fields)
        if new != text:
            path.write_text(new, encoding="utf-8")


if __name__ == "__main__":
    main()

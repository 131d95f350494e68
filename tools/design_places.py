"""Lists the places in crates/*/src that an older form of the language left, by the points of docs/DESIGN-PASS.md.

Usage: python3 tools/design_places.py [FOLDER] [--list]    (FOLDER: the top of a checkout, . by default)

Without --list a table of counts a crate; with it each place, as `point crate file:line what`.
"""

import re
import sys
from collections import defaultdict
from pathlib import Path

TYPES = r"\b(?:u8|u16|u32|u64|usize|i8|i16|i32|i64|f64|bool)\b"


def items(text, word):
    """Each item that begins with `word`: (line, name, head, body), by matching braces."""
    for m in re.finditer(r"^[ \t]*(?:pub(?:\(crate\))? )?(?:const )?(?:unsafe )?(?:extern \"C\" )?" + word + r" (\w+)", text, re.M):
        depth, open_, i, start = 0, 0, m.end(), None
        while i < len(text):
            c = text[i]
            open_ += (c in "([") - (c in ")]")
            if c == "{":
                if depth == 0:
                    start = i
                depth += 1
            elif c == "}":
                depth -= 1
                if depth == 0:
                    before = text[m.start():start]
                    # a contract's clause is no body
                    if word == "fn" and re.search(r"\b(?:ensures|requires)\b[^{}]*$", before.splitlines()[-1] if before.splitlines() else ""):
                        i += 1
                        continue
                    yield text.count("\n", 0, m.start()) + 1, m.group(1), text[m.start():start], text[start:i + 1]
                    break
            elif c == ";" and depth == 0 and open_ == 0:
                break
            i += 1


def parameters(head):
    m = re.search(r"\(([^()]*(?:\([^()]*\)[^()]*)*)\)", head.replace("pub(crate)", "pub"))
    found = []
    for part in re.split(r",(?![^\[]*\])", m.group(1) if m else ""):
        part = part.strip()
        if ":" in part:
            name, kind = part.split(":", 1)
            found.append((name.replace("mut ", "").strip(), " ".join(kind.split())))
    return found


def clauses(head):
    return re.findall(r"requires(?: \w+)? \{ (.*?) \}$", head, re.M)


def shape_of_enum(body):
    body = re.sub(r"//.*", "", body)
    variants = re.findall(r"(\w+)\s*(\([^)]*\)|\{[^}]*\})?\s*,", body[1:-1] + ",")
    bare = [n for n, d in variants if not d]
    full = [(n, d) for n, d in variants if d]
    if len(variants) == 2 and len(bare) == 1:
        return "shape of Option"
    if any("Refus" in n or "Truncated" in n for n, d in variants) and len(variants) <= 3 and not all("Truncated" in n or "Bad" in n for n, d in variants):
        return "shape of Result"
    if "Absent" in bare:
        return "Option of an enum"
    return None


def skeleton(name, head, body):
    """A function with its types, numbers, and own names put away: twins have one skeleton."""
    text = re.sub(r"//.*", "", head.split("ensures")[0].split("requires")[0] + body)
    names = [name] + [p for p, _ in parameters(head)] + re.findall(r"let (?:mut )?(\w+)", text)
    for i, n in enumerate(dict.fromkeys(names)):
        text = re.sub(r"\b" + n + r"\b", f"n{i}", text)
    text = re.sub(TYPES, "T", text)
    text = re.sub(r"\b(?:0x[0-9A-Fa-f_]+|[0-9][0-9_.]*)(?:u8|u16|u32|u64|usize|f64)?\b", "N", text)
    text = re.sub(r"pub(?:\(crate\))? ", "", text)
    return "".join(text.split()).replace("<=", "<")


def places(top):
    """(point, crate, file, line, what), for each place."""
    twins, named, runs = defaultdict(list), defaultdict(list), defaultdict(list)
    for path in sorted(Path(top).glob("crates/*/src/**/*.rt")):
        crate = path.relative_to(top).parts[1]
        text = path.read_text()
        where = str(path.relative_to(top))
        for line, name, head, body in items(text, "enum"):
            shape = shape_of_enum(body)
            if shape:
                yield 1, crate, where, line, f"enum {name}: {shape}"
        for line, name, head, body in items(text, "struct"):
            fields = re.findall(r"(\w+): ([^,\n]+)", re.sub(r"//.*", "", body))
            for f, k in fields:
                if k == "bool" and f in ("full", "more", "due", "on", "is_video", "end", "parsed"):
                    yield 1, crate, where, line, f"struct {name}: flag {f} beside a value"
                if f in ("kind", "number", "owner") and k in ("u8", "u16", "u64", "usize"):
                    yield 1, crate, where, line, f"struct {name}: a number for {f}"
                if f in ("count",) or f.endswith("_count"):
                    if any(v.startswith("[") for _, v in fields):
                        yield 6, crate, where, line, f"struct {name}: {f} beside an array"
            arrays = [f for f, v in fields if v.startswith("[")]
            sizes = [v.rsplit(";", 1)[-1] for _, v in fields if v.startswith("[")]
            if len(arrays) != len(set(sizes)):
                yield 6, crate, where, line, f"struct {name}: parallel arrays {', '.join(arrays)}"
        for m in re.finditer(r"^(?:pub(?:\(crate\))? )?const (OVERFLOW|UNDERFLOW|DELAY|TB_OVERFLOW|TB_BUSY|MB_BUSY|SYSTEM|NOBODY): (u8|usize)", text, re.M):
            yield 1, crate, where, text.count("\n", 0, m.start()) + 1, f"const {m.group(1)}: a number for a kind"
        for line, name, head, body in items(text, "fn"):
            ps = parameters(head)
            for p, k in ps:
                if p == "kind" and k in ("u8", "u16", "u64", "usize"):
                    yield 1, crate, where, line, f"fn {name}: a number for {p}"
                if k == "bool" and p in ("end", "wanted", "on", "optional", "alone"):
                    yield 7, crate, where, line, f"fn {name}: switch {p}"
            twins[skeleton(name, head, body)].append((crate, where, line, name))
            if name not in ("new", "main"):
                named[(crate, name)].append((crate, where, line, name))
            for w in re.finditer(r"\bwhile ([^{]*)\{", body):
                names = re.findall(r"\b(\w+)\b", w.group(1))
                rest = body[w.end():]
                if any(re.search(r"\b" + n + r" (?:\+|-)= ", rest) or re.search(r"\b" + n + r" = " + n + r" [+-] ", rest) for n in names):
                    yield 3, crate, where, line, f"fn {name}: while {w.group(1).strip()}"
            if re.fullmatch(r"\{\s*\(?\w+(?: % \w+)?\)? as \w+\s*\}", body):
                yield 4, crate, where, line, f"fn {name}: a conversion by hand"
            if name in ("same", "eq", "cmp", "fmt", "put_number", "of"):
                yield 4, crate, where, line, f"fn {name}: equality, order, conversion or printing by hand"
            for c in clauses(head):
                runs[(crate, "clause " + c)].append((where, line, name))
            for a, b in zip(ps, ps[1:]):
                if a[0] != "self":
                    runs[(crate, f"parameters {a[0]}: {a[1]}, {b[0]}: {b[1]}")].append((where, line, name))
            for a, b in zip(ps, ps[1:]):
                if a[1].startswith("[") or a[1].startswith("&["):
                    if b[0] in ("count", "n") and b[1] == "usize":
                        yield 6, crate, where, line, f"fn {name}: {a[0]} with its length {b[0]} beside"
    told = set()
    # of one skeleton anywhere, or of one name in two files of a crate
    for group in list(twins.values()) + [g for g in named.values() if len({w for _, w, _, _ in g}) > 1]:
        if len(group) > 1:
            for crate, where, line, name in group:
                others = ", ".join(sorted({f"{c}::{n}" for c, w, l, n in group if (w, l) != (where, line)}))
                if (where, line) not in told:
                    told.add((where, line))
                    yield 2, crate, where, line, f"fn {name}: as {others}"
    for (crate, what), group in sorted(runs.items()):
        if len(group) >= 3:
            yield 5, crate, group[0][0], group[0][1], f"{what}, in {len(group)} functions"
    for path in sorted(Path(top).glob("crates/*/proofs/**/Answers.antt")):
        crate = path.relative_to(top).parts[1]
        for n in range(len(re.findall(r"^[a-zA-Z][\w-]*(?: \w+)* =", path.read_text(), re.M))):
            yield 8, crate, str(path.relative_to(top)), 0, "answer"


def main():
    arguments = [a for a in sys.argv[1:] if a != "--list"]
    found = list(places(arguments[0] if arguments else "."))
    if "--list" in sys.argv:
        for point, crate, where, line, what in sorted(found):
            if point != 8:
                print(point, crate, f"{where}:{line}", what)
        return
    crates = sorted({f[1] for f in found})
    print("crate".ljust(20) + "".join(str(p).rjust(6) for p in range(1, 9)))
    for crate in crates + ["all"]:
        row = [sum(f[0] == p and crate in (f[1], "all") for f in found) for p in range(1, 9)]
        print(crate.ljust(20) + "".join(str(n).rjust(6) for n in row))


main()

#!/usr/bin/env python3
"""Turns a crate's Proof.antt files of the older Rattle, in the spelling of port.py, into Invariants.antt and Answers.antt.

usage: convert_proofs.py CRATE NAMES.json [FUNCTION..]      CRATE: the folder; NAMES.json: what
       `rt check --generated DIR --old-names` writes to DIR in that folder

A goal goes by its new name, and a path `c.before.before.f.ensures` becomes `c.f.ensures`. Answers that are `search rules` go.
What it cannot resolve reads UNRESOLVED or NO GOAL, for mending by hand. The old file stays beside as Proof.old.
It did the crates of docs/PORT.md; crates/chain, which stands as text, still has such files.
"""
import json, pathlib, re, sys

crate = pathlib.Path(sys.argv[1]); names = json.load(open(sys.argv[2])); only = set(sys.argv[3:])
cr = crate.name
TRIV = re.compile(r"^search rules$")

def norm(s): return re.sub(r"[-_]", "", s)

def chunks(text):
    """top-level declarations: (comment+pragma lines, signature and body lines)"""
    lines = text.split("\n"); out = []; cur = []
    for ln in lines:
        if ln.strip() == "":
            if cur and not cur[-1].startswith(" "*0 + "--"): cur.append(ln)
            elif cur: cur.append(ln)
            continue
        starts = re.match(r"(pub |abbrev |unfoldable )*[^\s(){}.;,@\"«»:]+ *(\{[^}]*\} *)*:( |$)", ln) or ln.startswith("module ") or ln.startswith("--") or ln.startswith("use ") or re.match(r"(pub )?record ", ln)
        if starts and not (cur and all(l.startswith("--") for l in cur if l.strip())):
            if cur: out.append(cur)
            cur = [ln]
        else:
            cur.append(ln)
    if cur: out.append(cur)
    return ["\n".join(c).strip("\n") for c in out]

class Fn:
    def __init__(self, d):
        self.d = d
        self.place = {}     # new place name -> (parent new, step old, step new)
        self.old2new = {}
        nn = d["places_by_name"]; olds = [p[0] for p in d["places"]]
        for p, n in zip(d["places"], nn):
            self.old2new.setdefault(p[0], n)
        for p, n in zip(d["places"], nn):
            par = self.old2new.get(p[1]) if p[1] else None
            self.place[n] = (par, p[2][0], p[2][1])
        self.need = []
        for (o, n), at in zip(d["needs"], d["asked_at"]): self.need.append((o, n, at[1] if isinstance(at, list) else at))
    def chain(self, place):
        out = []
        while place:
            par, so, sn = self.place[place]
            if so: out.append((so, sn, place))
            place = par
        return out
    def goal(self, tie):
        k = norm(tie)
        for o, n, at in self.need:
            if o == tie or n == tie: return n, at
        for o, n, at in self.need:
            if k in (norm(o), norm(n), "overflow" + norm(o)): return n, at
        return None

def resolve(fn, place, k, label):
    ch = fn.chain(place)
    if label in ("args", "requires", "ranges"): return label
    if label in ("well-formed", "well_formed"): return "well_formed"
    hits = [(i, sn) for i, (so, sn, _) in enumerate(ch) if norm(so) == norm(label)]
    if not hits:
        hits = [(i, sn) for i, (so, sn, _) in enumerate(ch) if norm(re.sub(r"[-_]?\d+$", "", so)) == norm(label) or norm(sn) == norm(label)]
    if not hits: return None
    if len(hits) == 1: return hits[0][1]
    later = [h for h in hits if h[0] >= k]
    return (later[0] if later else hits[-1])[1]

def unalias(body):
    for _ in range(20):
        m = re.search(r"let ([A-Za-z]\w*) = c((?:\.before)+) in\s*", body)
        if not m: return body
        name, dots = m.group(1), m.group(2)
        rest = body[m.end():]
        rest = re.sub(r"(?<![\w.'-])%s(?=\.|\s|\)|,|;|$)" % re.escape(name), "c" + dots, rest)
        body = body[:m.start()] + rest
    return body

def paths(fn, place, body, var="c"):
    body = unalias(body) if var == "c" else body
    def sub(m):
        k = m.group(1).count(".before"); label = m.group(2)
        if label == "before": return m.group(0)
        r = resolve(fn, place, k, label)
        return f"{var}.{r}" if r else f"{var}.UNRESOLVED-{k}-{label}"
    body = body.replace(".type-inv", ".type_inv")
    return re.sub(r"(?<![\w.'-])%s((?:\.before)*)\.([A-Za-z][\w'-]*)" % re.escape(var), sub, body)

def loops(fn):
    return fn.d["loops"]

def invariant(fn, idx, decl, body, kind):
    (lo, ln), vars_ = fn.d["loops"][idx][0], fn.d["loops"][idx][1]
    changed = fn.d["changed"][idx] if idx < len(fn.d["changed"]) else [False] * len(vars_)
    m = re.match(r"\S+((?: +\S+)*) =\s*([\s\S]*)$", body)
    if not m: return None
    args = m.group(1).split(); rhs = m.group(2)
    back = {}
    ch = [v for v, c in zip(vars_, changed) if c]
    if len(args) == len(vars_) + len(ch):
        for a, v, c in zip(args, vars_, changed): back[a] = f"l.initial.{v}" if c else f"l.{v}"
        for a, v in zip(args[len(vars_):], ch): back[a] = f"l.{v}"
    else:
        for a in args:
            base = a.rstrip("₀'")
            back[a] = (f"l.initial.{base}" if a.endswith("₀") else f"l.{base}")
        rhs = f"-- POSITIONS {args} {vars_} {changed}\n    " + rhs
    def sub(mm):
        w = mm.group(0)
        return back.get(w, w)
    rhs = re.sub(r"(?<![\w.«'-])[A-Za-z_][\w₀'-]*", sub, rhs)
    return ln, rhs

def main():
    for key, d in names.items():
        m = re.match(r"Rattle-%s-proofs\.(.*)\.Lts$" % re.escape(cr), key)
        if not m: continue
        path = m.group(1)
        if only and path not in only and path.split(".")[-1] not in only: continue
        folder = crate / "proofs" / path.replace(".", "/")
        f = folder / "Proof.antt"
        if not f.exists(): continue
        text = f.read_text()
        fn = Fn(d)
        uses = [l for l in text.split("\n") if l.startswith("use ")]
        uses = [u for u in uses if ".Statement." not in u and not re.search(r"\.Tie( as tie)?$", u) and "Tie.{" not in u]
        head = []
        for l in text.split("\n"):
            if l.startswith("--"): head.append(l)
            else: break
        inv, ans, helpers, notes = [], [], [], []
        li = {"invariant": 0, "decreases": 0}
        for ch in chunks(text):
            body = "\n".join(l for l in ch.split("\n") if not l.startswith("use "))
            if not body.strip(): continue
            if all(l.startswith("--") for l in body.split("\n") if l.strip()): continue
            sig = [l for l in body.split("\n") if not l.startswith("--")]
            com = [l for l in body.split("\n") if l.startswith("--")]
            first = sig[0]
            mi = re.match(r"(?:abbrev |pub |unfoldable )*(\S+) : tie\.(invariant|decreases)-(\S+)", first)
            if mi:
                kind = mi.group(2)
                lname = mi.group(3)
                idx = next((i for i, L in enumerate(fn.d["loops"]) if L[0][0] == lname or norm(L[0][0]) == norm(lname)), li[kind])
                li[kind] += 1
                rest = "\n".join(sig[1:]).rstrip()
                try:
                    ln, rhs = invariant(fn, idx, mi.group(1), rest, kind)
                except Exception as e:
                    notes.append(f"-- FAILED {kind} {e}: {rest}"); continue
                nm = f"{kind}-{ln}"
                inv.append("\n".join(com + [f"abbrev pub {nm} : goal.{nm}", f"{nm} l = {rhs}"]))
                continue
            mn = re.match(r"(?:pub )?(\S+) : tie\.Need-(\S+)", first)
            if mn:
                g = fn.goal(mn.group(2))
                unf = [l for l in sig[1:] if l.startswith("unfolding")]
                rest = "\n".join(l for l in sig[1:] if not l.startswith("unfolding")).rstrip()
                mb = re.match(re.escape(mn.group(1)) + r"((?: +\S+)*?) =\s*([\s\S]*)$", rest)
                if not mb: notes.append("-- CLAUSES\n" + rest); continue
                args, rhs = mb.group(1).split(), mb.group(2).strip()
                if TRIV.match(rhs) and not unf: continue
                if not g: notes.append(f"-- NO GOAL for {mn.group(2)}: {rhs}"); continue
                n, at = g
                args = [a for a in args if a != "κs"]
                rhs = paths(fn, at, rhs)
                rhs = re.sub(r" +invariant-loop\S* decreases-loop\S*", "", rhs)
                sep = "\n    " if "\n" in mb.group(2).strip() or len(rhs) > 100 else " "
                # names of other needs that this one cites
                ans.append((n, com + [f"pub {n} : goal.{n}"] + unf + [f"{n} {' '.join(args)} ={sep}"], rhs, mn.group(1)))
                continue
            if re.match(r"pub \S+[-_]spec :", first): continue
            # a helper
            b = body
            for pm in re.finditer(r"\((\w+) : tie\.([A-Za-z0-9-]+)((?: invariant-loop\S* decreases-loop\S*)*)\)", body):
                var, pl = pm.group(1), pm.group(2)
                new = fn.old2new.get(pl)
                if new:
                    b = paths(fn, new, b, var).replace(pm.group(0), f"({var} : goal.{new})")
            helpers.append(b)
        ours = {o: n for n, t, r, o in ans if o != n}
        def cited(t):
            for o, n in ours.items():
                t = re.sub(r"(?<![\w.'-])%s(?= c\b)" % re.escape(o), n, t)
            return t
        mod = f"Rattle.{cr}.proofs.{path}"
        if inv:
            (folder / "Invariants.antt").write_text("\n".join(head + uses + [f"use {mod}.Given as goal", ""]) + "\n" + "\n\n".join(inv) + "\n")
        if ans or helpers or notes:
            lts = []
            (folder / "Answers.antt").write_text("\n".join(head + uses + [f"use {mod}.Goals as goal"] + lts + [""]) + "\n" + "\n\n".join([cited(h) for h in helpers] + ["\n".join(t) + cited(r) for n, t, r, o in ans] + notes) + "\n")
        f.rename(folder / "Proof.old")
        print(path, "inv" if inv else "", len(ans), "answers", len(helpers), "helpers", len(notes), "notes")
main()

#!/usr/bin/env python3
"""Turns proofs that name the goals one by one (Proof.antt, tie.spec) into Invariants.antt and Answers.antt.

usage: tools/answers.py NAMES CRATE..     at the top of the repository; NAMES is the folder that `rt names NAMES` wrote

A goal that was left to a search, or to omega with nothing beside it, gets no answer: the check finds it.
"""
import json
import os
import re
import sys

SKIP = re.compile(r"^\(λ c( κs)?\. (search (rules|needs)|omega arith)\)$")
CHAIN = re.compile(r"(?<![\w.'-])([A-Za-z_][\w']*)((?:\.[A-Za-z0-9_][\w'-]*)+)")
TOKEN = re.compile(r"[^\s(){}.;,:@\"«»\[\]`]+")
ROOT = {"args", "requires", "pre", "good", "ranges", "lifetimes", "well_formed", "well-formed"}


def flat(s):
    return s.replace("-", "_")


def blocks(text):
    """The top-level pieces of a file: (names, lines)."""
    out, cur = [], []
    for line in text.split("\n"):
        if line.startswith("unfolding ") and cur:
            cur.append(line)
        elif line and not line[0].isspace() and not line.startswith(")"):
            cur = [line]
            out.append(cur)
        elif cur or line.strip():
            cur.append(line)
    return out


def args_of(text):
    """The arguments of a call, cut at blanks outside brackets."""
    out, depth, cur = [], 0, ""
    for ch in text:
        if ch in "([{":
            depth += 1
        if ch in ")]}":
            depth -= 1
            if depth < 0:
                break
        if ch.isspace() and depth == 0:
            if cur:
                out.append(cur)
            cur = ""
        else:
            cur += ch
    if cur:
        out.append(cur)
    return out


def cut(uses, body):
    """The imports that a text needs."""
    toks = set(TOKEN.findall(re.sub(r"--.*", "", body)))
    out = []
    for u in uses:
        m = re.match(r"use ([^\s{]+)\.\{(.*)\}$", u, re.S)
        if not m:
            out.append(u)
            continue
        needed = []
        for x in re.split(r",\s*", m[2].strip().rstrip(",")):
            w = x.strip().split(" as ")[-1]
            if w.replace("◌", "") in body if "◌" in w else w in toks or w in body:
                needed.append(x.strip())
        if needed:
            out.append(f"use {m[1]}.{{{', '.join(needed)}}}")
    return out


MUTS = {}


def read_muts():
    """The parameters by &mut of each function, by its path."""
    for folder, dirs, fs in os.walk("crates"):
        dirs[:] = [d for d in dirs if d not in ("out", "specs", "proofs")]
        for f in fs:
            if f.endswith(".rt"):
                p = os.path.join(folder, f)
                parts = p.split(os.sep)
                mod = [parts[1]] + parts[3:-1] + ([] if f in ("lib.rt", "main.rt") else [f[:-3]])
                for m in re.finditer(r"\bfn (\w+)\s*(?:<[^>]*>)?\(([^)]*)\)", open(p, encoding="utf-8").read()):
                    MUTS["::".join(mod + [m[1]])] = re.findall(r"(\w+): &mut", m[2])


class Names:
    def __init__(self, j):
        self.j = j
        self.places = {}
        for p, new in zip(j["places"], j["places_by_name"]):
            self.places[flat(p[0])] = dict(old=p[0], new=new, parent=p[1] and flat(p[1]), step=p[2], callee=p[3])
        self.typed = {flat(p[0]): t for p, t in zip(j["places"], j["typed"])}
        self.needs = j["needs"]
        self.asked = [flat(a[0]) for a in j["asked_at"]]
        self.loops = j["loops"]
        self.arms = {flat(p[0]): a for p, a in zip(j["places"], j["arms"])}

    def arm(self, p, f, tail):
        """The new form of a step's fields that are an arm's."""
        best = None
        while p:
            a = self.arms.get(p)
            for new, old, path in (a[2] if a else []):
                if flat(old).lower() == flat(f).lower() and tail[: len(path)] == path and (best is None or len(path) > best[2]):
                    best = (a[0], new, len(path))
            p = self.places[p]["parent"]
        return best

    def up(self, p, n):
        for _ in range(n):
            q = self.places.get(p)
            if not q or not q["parent"]:
                return None
            p = q["parent"]
        return p

    def step(self, p, f):
        """The place at or above p whose step has the old name f."""
        for g in (flat(f), re.sub(r"_lem$", "", flat(f)), flat(f).lower()):
            for here in (p, None):
                q = here and self.places[here]
                while q:
                    if flat(q["step"][0]).lower() == g.lower():
                        return q
                    q = q["parent"] and self.places[q["parent"]]
        return None

    def steps(self):
        return {flat(q["step"][0]): q for q in self.places.values()}


class Turn:
    def __init__(self, names, path):
        self.n = names
        self.path = path
        self.said = []
        self.helpers = {}
        self.places_used = set()
        self.goal = None
        self.cycle = False

    def member(self, q, rest):
        """The fields behind a step, in the new form."""
        out = list(rest)
        if out and out[0] in ("last", "new", "auto", "kept"):
            out[0] = {"last": "new", "kept": "auto"}.get(out[0], out[0])
            k = 0
            while k + 1 < len(out) and out[k + 1] == "1":
                k += 1
            if k + 1 < len(out) and out[k + 1] == "0" and q["callee"]:
                ps = self.n.j["params"].get(q["callee"], [])
                if k < len(ps):
                    out[1 : k + 2] = [ps[k]]
                else:
                    self.said.append(f"parameter {k} of {q['callee']}")
        if out and out[0] == "inv":
            out[0] = "invariant"
        if out and out[0] == "taken":
            out[0] = "true"
        if out and out[0] == "left":
            out[0] = "false"
        if out and out[0] in ("type-inv",):
            out[0] = "ok" if q["step"][0].startswith("if") else "type_inv"
        return out

    def chain(self, head, place, fields, var):
        """head.fields, at a place; the new text."""
        p = place
        i = 0
        while i < len(fields) and fields[i] == "before":
            p = self.n.up(p, 1)
            i += 1
            if p is None:
                p = "Start"
        rest = fields[i:]
        if not rest:
            if not i or not self.goal:
                return ".".join([head] + fields) if not self.goal else var
            self.places_used.add(self.n.places[p]["new"])
            return f"(goal.at.{self.goal} {'t ' if self.cycle else ''}{var}).{self.n.places[p]['new']}"
        f = rest[0]
        if f in ROOT:
            f = {"pre": "requires", "well-formed": "well_formed", "good": "well_formed"}.get(f, f)
            pre = self.n.j.get("pre")
            if self.cycle and f == "requires" and len(rest) > 1 and rest[1] == "0":
                return ".".join([var, "requires-raw", "0"] + rest[2:])
            if self.cycle and f == "requires" and len(rest) > 1 and rest[1] == "1":
                rest = ["requires"] + rest[2:]
            if f == "requires" and pre and len(rest) > 1 and rest[1].isdigit() and int(rest[1]) < len(pre["fields"]):
                rest = [rest[0], pre["fields"][int(rest[1])]] + rest[2:]
            return ".".join([var, f] + rest[1:])
        q = self.n.step(p, f) or self.n.step(place, f)
        if not q:
            self.said.append(f"no step {f} at {p}: {head}.{'.'.join(fields)}")
            return ".".join([var] + [flat(x) for x in rest])
        tail = rest[1:]
        a = self.n.arm(place, f, tail)
        if a:
            return ".".join([var, a[0], a[1]] + tail[a[2] :])
        if tail[:1] == ["given"]:
            for pl, t in self.n.typed.items():
                for v, s in t:
                    if flat(s) == flat(f) and "shared" in s:
                        return ".".join([var, "type_inv", v] + tail[1:])
        return ".".join([var, q["step"][1]] + self.member(q, tail))

    def body(self, text, place, var="c"):
        """The text of a proof whose record is var at place, in the new form."""
        vars_ = {var: place}

        def let(m):
            vars_[m[1]] = flat(m[2])
            return ""

        text = re.sub(r"let (\w+) = \1\.args in(.*)", lambda m: f"let {m[1]}_args = {m[1]}.args in" + re.sub(rf"(?<![\w.'-]){m[1]}(?![\w'-])", m[1] + "_args", m[2]), text, flags=re.S)
        text = re.sub(r"let ([\w']+) : (?:[\w']+ )?(?:tie|[\w'-]+-lts)\.([\w-]+)(?: \([^()]*\)| [\w.'-]+)* = \(?search\)? in\s*", let, text)

        # names for places above
        while True:
            m = re.search(r"let ([\w']+) = ([\w']+)((?:\.before)+) in\s*", text)
            if not m or m[2] not in vars_ or vars_[m[2]] not in self.n.places:
                break
            vars_[m[1]] = self.n.up(vars_[m[2]], m[3].count(".before")) or "Start"
            text = text[: m.start()] + text[m.end() :]

        def one(m):
            h, fs = m[1], m[2][1:].split(".")
            if h not in vars_ or vars_[h] not in self.n.places:
                return m[0]
            return self.chain(h, vars_[h], fs, var)

        text = CHAIN.sub(one, text)
        # whole places that are handed on
        for v in vars_:
            if v != var:
                text = re.sub(rf"(?<![\w.'-]){v}(?![\w'-]|\.)", var, text)
        return text

    def above(self, text, place, var):
        """The same in a helper, whose place is below: by as many steps."""
        for h, pl in self.helpers.items():
            to = {q["new"]: o for o, q in self.n.places.items()}.get(pl)
            p, k = place, 0
            while p and p != to:
                p = self.n.places[p]["parent"] if p in self.n.places else None
                k += 1
            if p and k:
                text = re.sub(rf"(?<![\w.'-])({re.escape(h)}) (?:\(search\)|{re.escape(var)}(?![\w.'-]))", lambda m: f"{m[1]} {var}" + ".before" * k, text)
        return text

    def at(self, text, goal, var):
        """Helpers that take a place get it by its name."""
        for h, pl in self.helpers.items():
            w = f"(goal.at.{goal} {var}).{pl}"
            new = re.sub(rf"(?<![\w.'-])({re.escape(h)}) (?:\(search\)|{re.escape(var)}(?![\w.'-]))", lambda m: m[1] + " " + w, text)
            if new != text:
                self.places_used.add(pl)
            text = new
        return text


def turn(crate, folder, names, path):
    p = os.path.join(folder, "Proof.antt")
    text = open(p, encoding="utf-8").read()
    key = f"Rattle-{crate}-{path}.Lts"
    if key not in names or "tie.close" not in text or "tie.spec" not in text:
        return f"left: {p}: by hand ({'no names' if key not in names else 'no tie.spec'})"
    n = Names(names[key])
    t = Turn(n, p)
    bs = blocks(text)
    head = [l for b in bs if b[0].startswith("--") for l in b]
    comments, uses, items, pending = [], [], [], []
    for b in bs:
        if b[0].startswith("use "):
            uses.append("\n".join(b).strip())
        elif b[0].startswith("--"):
            (pending if uses else comments).append("\n".join(b).rstrip())
        else:
            items.append((pending, b))
            pending = []
    # declarations: signature and equations
    decls, order = {}, []
    for pre, b in items:
        m = re.match(r"((?:abbrev |pub |module |open )*)([^\s:]+)", b[0])
        name = m[2]
        if name in decls:
            decls[name]["lines"] += b
        else:
            decls[name] = dict(mods=m[1], lines=list(b), pre=pre)
            order.append(name)
    spec = [x for x in order if re.search(r"tie\.close", "\n".join(decls[x]["lines"]))]
    if len(spec) != 1:
        return f"left: {p}: specs {spec}"
    st = "\n".join(decls[spec[0]]["lines"])
    st = st[st.index("tie.spec") + 8 :]
    args = args_of(re.sub(r"\s+", " ", st))
    k = len(n.loops)
    if len(args) != 2 * k + len(n.needs):
        # goals that the check now settles by itself: what is left is told apart by calls and by names
        rest = args[2 * k :]

        def call_of(a):
            text_ = " ".join(decls[a]["lines"]) if a in decls else a
            return bool(re.search(r"\bκs\b", text_))

        def sig_of(a):
            q = a in decls and re.search(r"tie\.Need-([\w-]+)", " ".join(decls[a]["lines"][:2]))
            return q and flat(q[1])

        def fits(a, need):
            old, new = need
            if call_of(a) != bool(re.search(r"-requires(-|$)", new)):
                return False
            return sig_of(a) in (None, False) or sig_of(a) in (flat(old), flat(new)) or not a

        memo = {}

        def best(i, j):
            if (i, j) not in memo:
                if i == len(rest):
                    memo[i, j] = (0, []) if j == len(n.needs) else None
                else:
                    ways = []
                    if j < len(n.needs) and fits(rest[i], n.needs[j]):
                        w = best(i + 1, j + 1)
                        if w:
                            ways.append((w[0], [rest[i]] + w[1]))
                    if SKIP.match(rest[i]) and not call_of(rest[i]):
                        w = best(i + 1, j)
                        if w:
                            ways.append((w[0] + (0 if i + 1 < len(rest) and call_of(rest[i + 1]) else 1), w[1]))
                    memo[i, j] = min(ways, key=lambda w: w[0]) if ways else None
            return memo[i, j]

        got = best(0, 0)
        if not got:
            return f"left: {p}: {len(args)} arguments, {k} loops, {len(n.needs)} goals: {[x[1] for x in n.needs]}"
        found = got[1]
        args = args[: 2 * k] + found
    inv, ans, used = [], [], {spec[0]}
    # invariants and measures
    for i in range(k):
        (old, new), vs = n.loops[i]
        ch = n.j["changed"][i]
        for j, kind in ((0, "invariant"), (1, "decreases")):
            a = args[2 * i + j]
            if a not in decls:
                return f"left: {p}: {kind} {a[:60]}"
            used.add(a)
            ls = decls[a]["lines"]
            eq = "\n".join(ls[1:]).strip("\n")
            m = re.match(rf"{re.escape(a)}((?: [^\s=]+)*) =", eq)
            if not m:
                return f"left: {p}: {kind} {eq[:60]}"
            ps = m[1].split()
            body = eq[m.end() :]
            news = ["initial." + v if c else v for v, c in zip(vs, ch)] + [v for v, c in zip(vs, ch) if c]
            if len(ps) != len(news):
                return f"left: {p}: {kind} has {len(ps)} arguments, not {len(news)}"
            mp = {x: "l." + y for x, y in zip(ps, news) if x != "_"}
            for bound in re.findall(r"λ \(?([^\s:.)]+)", body):
                if bound in mp:
                    t.said.append(f"bound {bound} in {kind}")
            body = re.sub(r"(?<![\w.'-])(?:[^\s(){}.;,:@\"«»\[\]`]+)", lambda m: mp.get(m[0], m[0]), body)
            inv += decls[a]["pre"] + [f"abbrev pub {kind}-{new} : goal.{kind}-{new}", f"{kind}-{new} l ={body}", ""]
    imp = t.places_used
    needed = []
    for x in order:
        if x not in used:
            m = re.match(r"(?:[^\n]*?) : (?:\(\w+ : )?tie\.([\w-]+)", "\n".join(decls[x]["lines"]))
            if m:
                pl = n.places.get(flat(m[1]))
                t.helpers[x] = pl["new"] if pl else m[1]
    for i, (old, new) in enumerate(n.needs):
        a = args[2 * k + i]
        place = n.asked[i]
        if SKIP.match(a):
            continue
        if a in decls:
            used.add(a)
            ls = decls[a]["lines"]
            sig = 1
            while sig < len(ls) and ls[sig].startswith((" ", "\t")):
                sig += 1
            eq = "\n".join(ls[sig:]).strip("\n")
            eqs = [x for x in ls[sig:] if x.startswith(a + " ")]
            if len(eqs) != 1:
                t.said.append(f"equations of {a}: {len(eqs)}")
            unf = ""
            while eq.startswith("unfolding "):
                l, eq = eq.split("\n", 1)
                unf += l + "\n"
            m = re.match(rf"{re.escape(a)} ([\w']+)( κs)?((?: [^\s=]+)*) =", eq)
            if not m:
                return f"left: {p}: answer {eq[:70]}"
            body = eq[m.end() :]
            v = m[1]
            t.goal = new
            b2 = t.at(t.body(body, place, v), new, v)
            t.goal = None
            needed += decls[a]["pre"] + [f"pub {new} : goal.{new}", f"{unf}{new} {v}{m[3]} ={b2}", ""]
        else:
            m = re.match(r"^\(λ (\w+)( κs)?\. (.*)\)$", a)
            if m:
                t.goal = new
                b2 = t.at(t.body(m[3], place, m[1]), new, m[1])
                t.goal = None
                needed += [f"pub {new} : goal.{new}", f"{new} {m[1]} = {b2}", ""]
            else:
                needed += [f"pub {new} : goal.{new}", f"{new} c = {t.body(a, place)} c", ""]
                t.said.append(f"argument {a[:60]}")
    helpers = []
    for x in order:
        if x in used:
            continue
        ls = "\n".join(decls[x]["lines"])
        m = re.search(r"\((\w+) : tie\.([\w-]+)", ls)
        if not m:
            m2 = re.match(r"[^\n]*? : tie\.([\w-]+)(?: [a-z][\w-]*-[\w-]+)* →", ls)
            m3 = m2 and re.search(rf"(?m)^{re.escape(x)} (\w+)", ls)
            m = m3 and [None, m3[1], m2[1]]

        def typ(m2):
            pl = n.places.get(flat(m2[1]))
            w = pl["new"] if pl else m2[1]
            imp.add(w)
            return w

        if m:
            place = flat(m[2])
            ls = t.above(t.body(ls, place, m[1]), place, m[1])
        ls = re.sub(r"tie\.([\w-]+)(?: (?:invariant|decreases)-[\w-]+)*", typ, ls)
        helpers += decls[x]["pre"] + [ls.rstrip("\n"), ""]
    # imports
    keep = []
    for u in uses:
        if re.search(r"\.Statement\.\{statement\}|\.Tie as tie|borrow\.Author\.Needs", u):
            continue
        keep.append(u)

    mod = f"Rattle.{crate}.{path}"
    inv_text = "\n".join(inv)
    helper_text = "\n".join(helpers)
    hnames = [x for x in order if x not in used]
    in_inv = [x for x in hnames if re.search(rf"(?<![\w.'-]){re.escape(x)}(?![\w'-])", inv_text)]
    if in_inv:
        t.said.append(f"helpers in invariants: {in_inv}")
    if inv:
        ih = []
        for x in in_inv:
            ls = "\n".join(decls[x]["lines"]).rstrip("\n")
            if not decls[x]["mods"].strip().endswith("pub"):
                ls = re.sub(rf"^(abbrev )?{re.escape(x)}", rf"\1pub {x}", ls)
            ih += decls[x]["pre"] + [ls, ""]
        full = "\n".join(ih + inv)
        us = cut(keep, full) + [f"use {mod}.Given as goal"]
        open(os.path.join(folder, "Invariants.antt"), "w", encoding="utf-8").write("\n".join(comments + us) + "\n\n" + full.rstrip("\n") + "\n")
        if in_inv:
            helpers = []
            for x in order:
                if x in used or x in in_inv:
                    continue
                helpers += decls[x]["pre"] + ["\n".join(decls[x]["lines"]).rstrip("\n"), ""]
    if needed:
        full = "\n".join(helpers + needed)
        us = cut(keep, full) + [f"use {mod}.Goals as goal"] + ([f"use {mod}.Goals.{{{', '.join(sorted(imp))}}}"] if imp else [])
        if in_inv and any(re.search(rf"(?<![\w.'-]){re.escape(x)}(?![\w'-])", full) for x in in_inv):
            us.append(f"use {mod}.Invariants.{{{', '.join(in_inv)}}}")
        open(os.path.join(folder, "Answers.antt"), "w", encoding="utf-8").write("\n".join(([] if inv else comments) + us) + "\n\n" + full.rstrip("\n") + "\n")
    os.remove(p)
    if t.said:
        return "look: " + p + ": " + "; ".join(t.said[:6])
    return None


def index_of(path):
    """The index that 1.1.0 leads to in a tuple."""
    return path.count("1")


def turn_cycle(crate, folder, names, path):
    p = os.path.join(folder, "Proof.antt")
    text = open(p, encoding="utf-8").read()
    if re.search(r"(?m)^module _ \(t : ℕ\) where$", text):
        a, b = re.split(r"(?m)^module _ \(t : ℕ\) where$\n", text, maxsplit=1)
        ls = b.split("\n")
        i = 0
        while i < len(ls) and (not ls[i].strip() or ls[i].startswith("  ")):
            ls[i] = ls[i][2:]
            i += 1
        text = a + "\n".join(ls)
    uses, items, pending, comments = [], [], [], []
    for b in blocks(text):
        if b[0].startswith("use "):
            uses.append("\n".join(b).strip())
        elif b[0].startswith("--"):
            (pending if uses else comments).append("\n".join(b).rstrip())
        else:
            items.append((pending, b))
            pending = []
    alias = {}
    for u in uses:
        m = re.match(r"use \S+\.(Lts(?:-([\w]+))?) as ([\w'-]+)$", u)
        if m:
            alias[m[3]] = (m[1], m[2])
    decls, order = {}, []
    for pre, b in items:
        m = re.match(r"((?:abbrev |pub )*)([^\s:]+)", b[0])
        if m[2] in decls:
            decls[m[2]]["lines"] += b
        else:
            decls[m[2]] = dict(mods=m[1], lines=list(b), pre=pre)
            order.append(m[2])
    spec = [x for x in order if re.search(r"\bclose\b", "\n".join(decls[x]["lines"]))]
    if len(spec) != 1:
        return f"left: {p}: specs {spec}"
    st = re.sub(r"\s+", " ", "\n".join(decls[spec[0]]["lines"]))
    st = st[st.index("close") + 5 :]
    parts = args_of(st)
    mus = [a for a in parts if not a.startswith("(")]
    fns = [a for a in parts if a.startswith("(")]
    said, used = [], {spec[0], *mus}
    inv, ans, imp, hs = [], [], set(), {}
    params = {}
    for folder2, dirs, fs in os.walk(os.path.join("crates", crate, "src")):
        for f in fs:
            for m in re.finditer(r"\bfn (\w+)\s*\(([^)]*)\)", open(os.path.join(folder2, f), encoding="utf-8").read()):
                params[m[1]] = re.findall(r"(\w+)\s*:", m[2])
    if len(mus) != len(fns):
        return f"left: {p}: {len(mus)} measures, {len(fns)} functions"
    for mu, fn in zip(mus, fns):
        m = re.match(r"\((?:λ (\w+)\. )?([\w'-]+)\.spec (.*)\)$", fn)
        if not m or m[2] not in alias:
            return f"left: {p}: {fn[:80]}"
        lts, name = alias[m[2]]
        key = f"Rattle-{crate}-{path}.{lts}"
        n = Names(names[key])
        t = Turn(n, p)
        t.cycle = True
        stem = n.j["stem"]
        fname = name or path.split("+")[-1]
        args = args_of(m[3])[3:]
        k = len(n.loops)
        if len(args) != 2 * k + len(n.needs):
            said.append(f"{fname}: {len(args)} arguments, {k} loops, {len(n.needs)} goals")
            continue
        # the measure
        d = "\n".join(decls[mu]["lines"])
        mm = re.search(rf"(?m)^{re.escape(mu)} κs (\w+) = (.*)$", d, re.S)
        ps = params.get(fname, [])
        body = re.sub(rf"(?<![\w.'-]){mm[1]}((?:\.1)*)\.0((?:\.now)?)(?!\w)", lambda q: "l." + ps[index_of(q[1])] + q[2], mm[2].strip())
        inv += [f"abbrev pub decreases-{fname} : goal.decreases-{fname}", f"decreases-{fname} l = {body}", ""]
        for i in range(k):
            (old, new), vs = n.loops[i]
            ch = n.j["changed"][i]
            for j, kind in ((0, "invariant"), (1, "decreases")):
                a = args[2 * i + j]
                used.add(a)
                ls = decls[a]["lines"]
                eq = "\n".join(ls[1:]).strip("\n")
                q = re.match(rf"{re.escape(a)}((?: [^\s=]+)*) =", eq)
                pp = q[1].split()
                news = ["initial." + v if c else v for v, c in zip(vs, ch)] + [v for v, c in zip(vs, ch) if c]
                if len(pp) != len(news):
                    said.append(f"{a}: {len(pp)} arguments, not {len(news)}")
                mp = {x: "l." + y for x, y in zip(pp, news) if x != "_"}
                b2 = re.sub(r"(?<![\w.'-])(?:[^\s(){}.;,:@\"«»\[\]`]+)", lambda z: mp.get(z[0], z[0]), eq[q.end() :])
                nm = f"{kind}-{stem}{new}"
                inv += [f"abbrev pub {nm} : goal.{nm}", f"{nm} l ={b2}", ""]
        for i, (old, new) in enumerate(n.needs):
            a = args[2 * k + i].strip()
            place = n.asked[i]
            if SKIP.match(a):
                continue
            goal = stem + new
            q = re.match(r"^\(([\w']+) t\)$", a)
            t.goal = goal
            nm = q[1] if q else a
            if nm in decls:
                used.add(nm)
                ls = decls[nm]["lines"]
                sig = 1
                while sig < len(ls) and ls[sig].startswith((" ", "\t")):
                    sig += 1
                eq = "\n".join(ls[sig:]).strip("\n")
                unf = ""
                while eq.startswith("unfolding "):
                    l, eq = eq.split("\n", 1)
                    unf += l + "\n"
                q = re.match(rf"{re.escape(nm)} (?:t )?([\w']+)( κs)?((?: [^\s=]+)*) =", eq)
                if not q:
                    said.append(f"{nm}: {eq[:60]}")
                    continue
                b2 = t.body(eq[q.end() :], place, q[1])
                ans += decls[nm]["pre"] + [f"pub {goal} : goal.{goal}", f"{unf}{goal} t {q[1]}{q[3]} ={b2}", ""]
            else:
                q = re.match(r"^\(λ (\w+)( κs)?\. (.*)\)$", a)
                if not q:
                    said.append(f"{goal}: {a[:60]}")
                    continue
                ans += [f"pub {goal} : goal.{goal}", f"{goal} t {q[1]} = {t.body(q[3], place, q[1])}", ""]
        said += [f"{fname}: {x}" for x in t.said]
    drop = set()
    for x in order:
        if x in used:
            continue
        ls = "\n".join(decls[x]["lines"])
        if re.search(r"kinds\.ps|-lts\.Claims|\.Asked|\.Learnt|Measures|In \d|\(and \d", ls):
            continue
        hs[x] = decls[x]["pre"] + [ls.rstrip("\n"), ""]
    keep = [u for u in uses if not re.search(r"\.(Reads|Kinds|Lts[\w-]*) as |borrow\.Fn\.|\{statement\}|\{close\}|borrow\.Author\.Needs", u)]
    mod = f"Rattle.{crate}.{path}"
    htext = [l for x in hs for l in hs[x]]

    full = "\n".join(inv)
    open(os.path.join(folder, "Invariants.antt"), "w", encoding="utf-8").write("\n".join(comments + cut(keep, full) + [f"use {mod}.Given as goal"]) + "\n\n" + full.rstrip("\n") + "\n")
    full = "\n".join(htext + ans)
    open(os.path.join(folder, "Answers.antt"), "w", encoding="utf-8").write("\n".join(cut(keep, full) + [f"use {mod}.Goals as goal"]) + "\n\n" + full.rstrip("\n") + "\n")
    os.remove(p)
    return ("look: " + p + ": " + "; ".join(said[:12])) if said else None


def main(argv):
    names_root = argv[0]
    read_muts()
    done = 0
    for crate in argv[1:]:
        jp = os.path.join(names_root, "crates", crate, "names.json")
        if not os.path.exists(jp):
            print(f"left: {crate}: no names")
            continue
        names = json.load(open(jp))
        top = os.path.join("crates", crate)
        for folder, dirs, fs in os.walk(os.path.join(top, "proofs")):
            dirs.sort()
            if "Proof.antt" in fs:
                path = os.path.relpath(folder, top).replace(os.sep, ".")
                cycle = os.path.basename(folder).startswith("+")
                said = (turn_cycle if cycle else turn)(crate, folder, names, path)
                if said:
                    print(said)
                else:
                    done += 1
    print(f"answers: {done} turned with nothing to look at")


if __name__ == "__main__":
    main(sys.argv[1:])

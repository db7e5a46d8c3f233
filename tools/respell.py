#!/usr/bin/env python3
"""Respells the names of the repository's own definitions, lemmas, fields and constructors: words in snake case.

usage: tools/respell.py [--list] [FOLDER]     once, behind port.py; FOLDER is a checkout, this one if left out
       tools/respell.py --texts FILE..        the same names in the backquotes and code blocks of pages; needs tools/respelled.tsv

A name that an .antt file below crates/ declares and that begins with a small letter is respelled: bodyLength is body_length,
code-is is code_is. Types, modules and names that begin with a capital keep theirs, and so do names that the checker makes
(invariant-.., decreases-.., goals, a cycle's proof) and names of the toolchain's libraries. Where a definition and a lemma fall
together, the lemma gets _lem. The pairs are written to tools/respelled.tsv.
"""
import os
import re
import sys

DECL = re.compile(r"^[ \t]*(?:(?:abbrev|pub|opaque|unfoldable|ruleset|data|record|field|ghost) +)*((?:[^\s(){}.;,:@\"«»λ=→`]+ +)*?[^\s(){}.;,:@\"«»λ=→`]+)(?: \{[^{}\n]*\})* :(?=\s|$)")
LET = re.compile(r"\blet ([a-z][^\s(){}.;,:@\"«»`]*) (?::|=)")
TOKEN = re.compile(r"[^\s(){}.;,:@\"«»\[\]⌜⌝‵!`]+")
MADE = re.compile(r"^(invariant|decreases)-|^\+")
WORDS = {"pub", "abbrev", "data", "record", "module", "field", "where", "let", "in", "constructor"}
HERE = os.path.dirname(os.path.realpath(__file__))
TABLE = os.path.join(HERE, "respelled.tsv")


def files(root):
    for folder, dirs, names in os.walk(os.path.join(root, "crates")):
        dirs[:] = sorted(d for d in dirs if d not in ("out", "must-fail"))
        for n in sorted(names):
            if n.endswith((".antt", ".rt")):
                yield os.path.join(folder, n)


def respelled(name):
    words = re.sub(r"(?<=[a-z0-9'])([A-Z])", lambda m: "_" + m[1].lower(), name)
    return words.replace("-", "_")


def names(root):
    """Old and new names."""
    own, libs = set(), set()
    crates = set(os.listdir(os.path.join(root, "crates")))
    for p in files(root):
        text = open(p, encoding="utf-8").read()
        code = re.sub(r"--.*", "", text) if p.endswith(".antt") else re.sub(r"//.*", "", text)
        for m in re.finditer(r"use ([^\s;{]+)\.\{([^}]*)\}", code):
            path = m[1].split(".")
            if not (path[0] == "Rattle" and len(path) > 1 and path[1] in crates):
                libs |= set(re.split(r"[,\s]+", m[2]))
        if p.endswith(".antt"):
            for line in code.splitlines():
                m = DECL.match(line)
                own |= set(m[1].split()) - WORDS if m else set()
                own |= {m[1] for m in LET.finditer(line)}
    todo = {}
    for n in sorted(own):
        if n[:1].islower() and n not in libs and not MADE.search(n) and respelled(n) != n:
            todo[n] = respelled(n)
    # a definition keeps the plain name, a lemma that meets it gets _lem
    taken = {v for n, v in todo.items() if re.search(r"[A-Z]", n)}
    taken |= {n for n in own if n not in todo} | libs
    for n in sorted(todo):
        if not re.search(r"[A-Z]", n) and todo[n] in taken:
            todo[n] += "_lem"
    # one that port.py has spelled like a definition
    camel = {v for n, v in todo.items() if re.search(r"[A-Z]", n)}
    for n in sorted(own):
        if n not in todo and n in camel:
            todo[n] = n + "_lem"
    if len(set(todo.values())) != len(todo):
        back = {}
        for n, v in todo.items():
            back.setdefault(v, []).append(n)
        sys.exit(f"respell: fall together: {[(v, l) for v, l in back.items() if len(l) > 1]}")
    return todo


def turned(text, todo, code=False):
    """text with the new names; a name that is plain already is turned in an .antt file that declares or imports it alone."""

    def one(m):
        n = m[0]
        if n not in todo:
            return n
        if re.fullmatch(r"[a-z0-9_']+", n):
            if code or text[m.start() - 1 : m.start()] == "." or not re.search(rf"(?m)^[^\n]*(use [^\n]*[{{ ]{n}[,}} ]|^ *(pub )?{n} :)", text):
                return n
        return todo[n]

    return TOKEN.sub(one, text)


def main(argv):
    if argv[:1] == ["--texts"]:
        todo = dict(l.rstrip("\n").split("\t") for l in open(TABLE, encoding="utf-8"))
        for p in argv[1:]:
            text = open(p, encoding="utf-8").read()
            new = re.sub(r"```.*?```|`[^`\n]+`", lambda m: turned(m[0], todo), text, flags=re.S)
            if new != text:
                open(p, "w", encoding="utf-8").write(new)
        return
    listing = argv[:1] == ["--list"]
    root = (argv[1:] if listing else argv)[0] if len(argv) > listing else "."
    if os.path.exists(TABLE) and not listing:
        todo = dict(l.rstrip("\n").split("\t") for l in open(TABLE, encoding="utf-8"))
    else:
        todo = names(root)
    if listing:
        print("\n".join(f"{a}\t{b}" for a, b in sorted(todo.items())))
        return
    with open(TABLE, "w", encoding="utf-8") as f:
        f.writelines(f"{a}\t{b}\n" for a, b in sorted(todo.items()))
    n = 0
    for p in files(root):
        text = open(p, encoding="utf-8").read()
        new = turned(text, todo, p.endswith(".rt"))
        if new != text:
            n += 1
            open(p, "w", encoding="utf-8").write(new)
    print(f"respell: {len(todo)} names, {n} files")


if __name__ == "__main__":
    main(sys.argv[1:])

#!/usr/bin/env python3
"""Mends two forms in answers by what a check says: a tuple where a record with named clauses is asked, and a clause by number.

usage: tools/mend.py LOG     in a crate's folder; LOG is what `rt check` printed
"""
import re
import sys


def cut(text, at):
    """The elements of the tuple that begins at text[at], and where it ends."""
    depth, out, cur, i = 0, [], "", at
    while i < len(text):
        ch = text[i]
        if ch in "([{":
            depth += 1
            if depth > 1:
                cur += ch
        elif ch in ")]}":
            depth -= 1
            if depth == 0:
                out.append(cur)
                return [x.strip() for x in out if x.strip()], i + 1
            cur += ch
        elif ch == "," and depth == 1:
            out.append(cur)
            cur = ""
        else:
            cur += ch
        i += 1
    return None, at


def main(argv):
    log = open(argv[0], encoding="utf-8").read().split("\n")
    todo = {}
    for i, l in enumerate(log):
        m = re.match(r"(\./\S+):(\d+):(\d+): error: `([^`]+)`", l)
        if not m:
            continue
        near = "\n".join(log[i : i + 3])
        r = re.search(r"is built with `record \{ (.*?) \}`, not as a tuple", near)
        f = re.search(r"has no field `(\d)`\n\s+its fields are (.*)", near)
        if r:
            names = [x.split(" ")[0] for x in r[1].split("; ")]
            todo.setdefault(m[1], []).append((int(m[2]), int(m[3]), "record", names))
        elif f:
            names = re.findall(r"`([^`]+)`", f[2])
            todo.setdefault(m[1], []).append((int(m[2]), int(m[3]), "field", (int(f[1]), names)))
    for path, places in todo.items():
        text = open(path, encoding="utf-8").read()
        starts = [0]
        for ch in text.split("\n"):
            starts.append(starts[-1] + len(ch) + 1)
        for line, col, kind, what in sorted(set((a, b, k, tuple(w) if k == "record" else (w[0], tuple(w[1]))) for a, b, k, w in places), reverse=True):
            at = starts[line - 1] + col - 1
            if kind == "record":
                while at < len(text) and text[at] in " \n":
                    at += 1
                if text[at] != "(":
                    print(f"left: {path}:{line}:{col}: no tuple")
                    continue
                parts, end = cut(text, at)
                if not parts or len(parts) != len(what):
                    print(f"left: {path}:{line}:{col}: {parts and len(parts)} parts, fields {what}")
                    continue
                text = text[:at] + "record { " + "; ".join(f"{n} = {p}" for n, p in zip(what, parts)) + " }" + text[end:]
                print(f"{path}:{line}: record {what}")
        # clauses by number: everywhere in the file that reads .requires.N
        for line, col, kind, what in places:
            if kind == "field":
                k, names = what
                text = re.sub(r"\.requires\.(\d)(?!\d)", lambda m: ".requires." + names[int(m[1])] if int(m[1]) < len(names) else m[0], text)
                for h in set(re.findall(r"let (\w+) = (?:\w+|\([^()]*\)\.[\w-]+)\.requires in", text)):
                    text = re.sub(rf"(?<![\w.'-]){h}\.(\d)(?!\d)", lambda m: f"{h}.{names[int(m[1])]}" if int(m[1]) < len(names) else m[0], text)
                print(f"{path}: requires {names}")
                break
        open(path, "w", encoding="utf-8").write(text)


if __name__ == "__main__":
    main(sys.argv[1:])

#!/usr/bin/env python3
"""Writes the clauses that a check asks for ("write the clauses").

usage: tools/clauses.py LOG     in a crate's folder; LOG is what `rt check` printed
"""
import re
import sys


def main(argv):
    log = open(argv[0], encoding="utf-8").read().split("\n")
    todo = []
    i = 0
    while i < len(log):
        m = re.match(r"(\./\S+):(\d+):\d+: error: `([^`]+)`: write the clauses", log[i])
        if m:
            i += 1
            cl = []
            while i < len(log) and log[i].startswith("  "):
                l = log[i].strip()
                if l.startswith(m[3] + " "):
                    cl.append(l)
                i += 1
            todo.append((m[1], int(m[2]), m[3], cl))
        else:
            i += 1
    for path, line, name, cl in sorted(todo, key=lambda t: (t[0], -t[1])):
        ls = open(path, encoding="utf-8").read().split("\n")
        # the clauses of the name round the line
        at = line - 1
        ind = None
        last = None
        j = at
        while j >= 0 and not re.match(rf"\s*(pub )?{re.escape(name)} :", ls[j]):
            j -= 1
        k = j + 1
        while k < len(ls):
            m = re.match(rf"(\s*){re.escape(name)}(?= )", ls[k])
            if m and not re.match(rf"\s*{re.escape(name)} :", ls[k]):
                if ind is None:
                    ind = m[1]
                if m[1] == ind:
                    last = k
            elif ls[k].strip() and ind is not None and len(ls[k]) - len(ls[k].lstrip()) <= len(ind) and not ls[k].strip().startswith(")"):
                break
            k += 1
        if last is None:
            print(f"left: {path}:{line}: {name}")
            continue
        e = last + 1
        k = e
        while k < len(ls):
            if ls[k].strip():
                if len(ls[k]) - len(ls[k].lstrip()) > len(ind) or ls[k].strip().startswith(")"):
                    e = k + 1
                else:
                    break
            k += 1
        ls[e:e] = [ind + c for c in cl]
        open(path, "w", encoding="utf-8").write("\n".join(ls))
        print(f"{path}:{e + 1}: {name}: {len(cl)} clauses")


if __name__ == "__main__":
    main(sys.argv[1:])

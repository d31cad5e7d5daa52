#!/usr/bin/env python3
"""Brings the repository's own definitions, lemmas, fields and constructors to snake case: `codeOf` to `code_of`, `laid-start` to `laid_start`.

usage: python3 tools/respell.py [TOP]   rewrites specs/, proofs/ and the clauses of src/ below TOP/crates in place, once, right after port.py

Words of comments and strings stay, names in backticks aside. Names of Rattle's own making (goals, steps) are no declarations of the repository and stay.
It stops where two names would fall together.
"""

import os
import re
import sys

DECLARED = re.compile(
    r"^(\s*)((?:abbrev|unfoldable|pub|mod|record|data|ruleset)\s+)*([^\s:(){}]+)\s*(?:\{[^}]*\}\s*|\([^)]*\)\s*)*:"
)
TOKEN = re.compile(r"[^\W\d][\w'\-]*")
MADE = re.compile(r":\s*(tie\.|goal\.|\{M : Type 1\})")


def files(top):
    for folder, dirs, names in os.walk(os.path.join(top, "crates")):
        dirs[:] = sorted(d for d in dirs if d != "out")
        for name in sorted(names):
            if name.endswith((".antt", ".rt")):
                yield os.path.join(folder, name)


def snake(name):
    spaced = re.sub(r"(?<=[a-z0-9'])(?=[A-Z])", "_", name)
    return spaced.replace("-", "_").lower()


def is_old(name):
    return bool(name) and name[0].islower() and ("-" in name or any(c.isupper() for c in name))


def declared(paths):
    found = {}
    for path in paths:
        if not path.endswith(".antt"):
            continue
        for line in open(path, encoding="utf-8"):
            m = DECLARED.match(line)
            if m and not MADE.search(line) and TOKEN.fullmatch(m.group(3)) and m.group(3)[0].islower():
                found.setdefault(m.group(3), path)
    return found


def spellings(names):
    """What each name becomes. A lemma that would have its function's name gets `_lem`."""
    table, lemmas = {}, {}
    functions = {snake(n) for n in names if "-" not in n and is_old(n)} | {n for n in names if not is_old(n)}
    for n in names:
        if not is_old(n):
            continue
        new = snake(n)
        if "-" in n and new in functions:
            new += "_lem"
        elif "-" not in n and new in names:
            lemmas[new] = new + "_lem"
        table[n] = new
    return table, lemmas


def respelled(text, table, lemmas, rust):
    def one(m):
        name = m.group(0)
        member = m.start() > 0 and text[m.start() - 1] == "."
        if name in lemmas and not rust and not member:
            return lemmas[name]
        if member and "-" in name and name in table:
            return snake(name)
        return table.get(name, name)

    return TOKEN.sub(one, text)


def parts(text, rust):
    """Pieces of a text, each with whether it is code."""
    comment = r"//[^\n]*" if rust else r"--[^\n]*"
    string = r'"(?:\\.|[^"\\\n])*"'
    at = 0
    for m in re.finditer(f"(?m)(?:(?<=\\s)|^)(?:{comment})|{string}", text):
        yield text[at : m.start()], True
        yield m.group(0), False
        at = m.end()
    yield text[at:], True


def main():
    top = sys.argv[1] if len(sys.argv) > 1 else "."
    paths = list(files(top))
    names = declared(paths)
    table, lemmas = spellings(names)
    bad = []
    back = {}
    for old, new in [*table.items(), *lemmas.items()]:
        if new in back or new in names and new not in lemmas:
            bad.append(f"{old} and {back.get(new, new)} both become {new}")
        back[new] = old
    out = {}
    for path in paths:
        rust = path.endswith(".rt")
        text = open(path, encoding="utf-8").read()
        made = []
        for piece, code in parts(text, rust):
            if code:
                made.append(respelled(piece, table, lemmas, rust))
            elif piece.startswith('"'):
                made.append(piece)
            else:
                made.append(re.sub(r"`([^`]*)`", lambda m: "`" + respelled(m.group(1), table, lemmas, rust) + "`", piece))
        out[path] = (text, "".join(made))
    if bad:
        print("\n".join(bad))
        raise SystemExit(1)
    n = 0
    for path, (old, new) in out.items():
        if old != new:
            n += 1
            with open(path, "w", encoding="utf-8") as f:
                f.write(new)
    for old, new in sorted([*table.items(), *lemmas.items()]):
        print(f"{old} {new}")
    print(f"{len(table) + len(lemmas)} names, {n} files")


main()

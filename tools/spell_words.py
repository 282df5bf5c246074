#!/usr/bin/env python3
"""Spells the repository's own definitions and lemmas as Rattle's guide asks: words in snake case, types in upper camel case.

usage: python3 tools/spell_words.py [TOP]     once, at the top of a checkout (or with its folder)

Turned is each name with a dash that a file of specs/ or proofs/ declares: `first-free` to `first_free`, `Free-spot` to `FreeSpot`.
Names that Rattle makes (goals, loops, calls) and those of its library keep their dashes, and comments keep their words.
It stops where two names would fall together.
"""
import os
import re
import sys

NAME = r"[A-Za-z_][A-Za-z0-9_'\-]*"
TOKEN = re.compile(r"(?<![\w'\-])" + NAME + r"(?![\w'])")
DECLARED = re.compile(r"^\s*(?:abbrev |unfoldable |opaque )*(?:pub )?(?:abbrev |unfoldable )*(?:record |data )?(" + NAME + r")(?:\s+[({][^=]*[)}])*\s*:")


def files(top, ending):
    for folder, _, names in os.walk(top):
        if "/out" not in folder:
            yield from (os.path.join(folder, n) for n in sorted(names) if n.endswith(ending))


def read(path):
    with open(path, encoding="utf-8") as f:
        return f.read()


def declared(crates):
    found = set()
    for path in files(crates, ".antt"):
        text = read(path)
        made = set(re.findall(r"goal\.(" + NAME + ")", text))
        for line in text.split("\n"):
            m = DECLARED.match(line)
            if m and "-" in m[1] and m[1] not in made:
                found.add(m[1])
    return found


def spelt(name):
    parts = name.split("-")
    return "".join(p[:1].upper() + p[1:] for p in parts) if name[0].isupper() else "_".join(parts)


def turned(text, names, comment):
    def line(l):
        at = l.find(comment)
        code, rest = (l, "") if at < 0 else (l[:at], l[at:])
        return TOKEN.sub(lambda m: names.get(m[0], m[0]), code) + rest

    return "\n".join(line(l) for l in text.split("\n"))


def main(top):
    crates = os.path.join(top, "crates")
    names = {n: spelt(n) for n in declared(crates)}
    if len(set(names.values())) != len(names):
        raise SystemExit("spell_words: two names would fall together")
    for ending, comment in ((".antt", "-- "), (".rt", "// ")):
        for path in files(crates, ending):
            old = read(path)
            new = turned(old, names, comment)
            if new != old:
                with open(path, "w", encoding="utf-8") as f:
                    f.write(new)
    for path in list(files(os.path.join(top, "docs"), ".md")) + [os.path.join(top, "README.md")]:
        old = read(path)
        new = re.sub(r"`[^`\n]+`", lambda m: TOKEN.sub(lambda w: names.get(w[0], w[0]), m[0]), old)
        if new != old:
            with open(path, "w", encoding="utf-8") as f:
                f.write(new)
    print(f"spell_words: {len(names)} names")


main(sys.argv[1] if len(sys.argv) > 1 else ".")

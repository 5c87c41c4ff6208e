#!/usr/bin/env python3
"""Spells the names of the crates' own definitions, lemmas, fields and variables as the library does: words in
snake case, types and facts in camel case. A dash stays only where it joins two names, as in length-contents.

usage: tools/respell.py        at the top of the repository, after /opt/rattle/port/port.py and before any edit by hand

Only names that the files themselves declare are touched; comments and the names that Rattle or its library make stay. In
a .rt file whole lines are read, but code and strings there have no name with a dash. Files are rewritten in place.
"""

import os
import re

NAME = r"[^\W\d_][\w']*(?:-[\w']+)+"
TOKEN = re.compile(r"[\w'◌][\w'\-+≤<≡◌·]*")
# where a name is declared
DECLARED = re.compile(
    r"^\s*(?:abbrev\s+|unfoldable\s+)?(?:pub\s+)?(?:abbrev\s+|unfoldable\s+)?(?:data\s+|record\s+)?((?:[\w'\-]+\s+)*?[\w'\-]+)\s*:(?!:)",
    re.M,
)
TYPE = re.compile(r"^\s*(?:pub\s+)?(?:data|record)\s+([\w'\-]+)", re.M)
BOUND = re.compile(r"(?:\blet\s+|λ\s*)([\w'\-]+)")
PAIR = re.compile(r"\blet\s+\(([\w'\-, ]+)\)")
PARAMETERS = re.compile(r"[({]((?:[\w'\-]+\s+)*[\w'\-]+)\s+:")
LEFT = re.compile(r"^\s*[\w'\-]+((?:\s+[\w'\-]+)+)\s+=(?:\s|$)", re.M)
ALIAS = re.compile(r"\bas\s+([\w'\-]+)")
GOAL = re.compile(r"\bgoal\.([\w'\-+≤<≡ℕ]+)")
IMPORT = re.compile(r"^\s*(?:pub\s+)?(?:ghost\s+)?use\s+(?!Rattle\.(?!std\b))\S+\.\{([^}]*)\}", re.M)
COMMENT = {".antt": re.compile(r"(^|\s)--(\s.*)?$"), ".rt": re.compile(r"//.*$")}
# a lemma on a word: the word's name, a dash, and what it is applied to
WORDS = {"getD": "get_or", "get_d": "get_or", "length": "length"}
# names that would fall together: with a variant of the same file, and with a word of the library
TAKEN = {"No-pile": "WithoutPile", "ones-in": "ones_in-ones"}


def files():
    for folder, dirs, names in os.walk("crates"):
        dirs[:] = sorted(d for d in dirs if d != "out")
        for name in sorted(names):
            if os.path.splitext(name)[1] in COMMENT:
                yield os.path.join(folder, name)


def code(path):
    """The lines of a file, each as the part before its comment and the comment."""
    with open(path, encoding="utf-8") as f:
        for line in f.read().split("\n"):
            m = COMMENT[os.path.splitext(path)[1]].search(line)
            yield (line[: m.start()], line[m.start() :]) if m else (line, "")


def spelled(name):
    if name in TAKEN:
        return TAKEN[name]
    if name[0].isupper():
        return "".join(p[:1].upper() + p[1:] for p in re.split("[-_]", name))
    m = re.match(r"(getD|get_d|length)[-_](.+)$", name)
    if m:
        return WORDS[m[1]] + "-" + m[2].replace("-", "_")
    return name.replace("-", "_")


def declared():
    """The names with a dash that the files declare, without those of goals and of the library."""
    mine, others = set(), set()
    for path in files():
        text = "\n".join(before for before, _ in code(path))
        others.update(GOAL.findall(text))
        for m in IMPORT.finditer(text):
            others.update(w.strip().split(" as ")[0] for w in m[1].split(","))
        mine.update(ALIAS.findall(text))
        if path.endswith(".antt"):
            for pattern in (DECLARED, PARAMETERS, LEFT):
                for m in pattern.finditer(text):
                    mine.update(m[1].split())
            for pattern in (TYPE, BOUND):
                mine.update(pattern.findall(text))
            for m in PAIR.finditer(text):
                mine.update(w.strip() for w in m[1].split(","))
    # what port.py left half way: a word of an older library in a lemma's name, and a type in snake case
    half = re.compile(r"(?:getD|get_d|length)_\w+|[A-Z][a-z]\w*_\w+")
    return {n for n in mine - others if re.fullmatch(NAME, n) or half.fullmatch(n)}


def main():
    new = {n: spelled(n) for n in declared()}
    for path in files():
        lines = [TOKEN.sub(lambda m: new.get(m[0], m[0]), before) + comment for before, comment in code(path)]
        text = "\n".join(lines)
        with open(path, encoding="utf-8") as f:
            old = f.read()
        if text != old:
            with open(path, "w", encoding="utf-8") as f:
                f.write(text)
    for n in sorted(new):
        print(n, new[n])


if __name__ == "__main__":
    main()

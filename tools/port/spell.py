#!/usr/bin/env python3
"""Spells this repository's own definitions and lemmas as today's Rattle does: words in snake case, types and modules in camel case.

usage: spell.py [--report]      at the top of the repository, once, after the kit's port.py

It goes by whole words. A name that a file of specs/ or proofs/ declares (but for Proof.antt) and that has a dash or a capital inside
is written in snake case everywhere: in specs/, proofs/, in clauses and imports of src/, and in the edits. Names that would fall
together get other ones from OTHER. --report writes nothing and lists what would meet another name in some file.
"""
import collections
import os
import re
import sys

NAME = r'[^\s(){}.;,@"«»]+'
DECLARED = re.compile(r"^\s*(?:abbrev |unfoldable |pub |data |record |where )*(%s)(?: %s)* :(?: |$)" % (NAME, NAME))
TOKEN = re.compile(r'"(?:[^"\\\n]|\\.)*"|--[^\n]*|%s' % NAME)
RUST_TOKEN = re.compile(r'"(?:[^"\\\n]|\\.)*"|//[^\n]*|%s' % NAME)
WORD = re.compile(r"[A-Za-z][A-Za-z0-9_']*")
CAMEL = re.compile(r"[a-z][a-z0-9]*(?:[A-Z][a-z0-9]*)+'*")



def files(*ends):
    for folder, dirs, names in os.walk("crates"):
        dirs[:] = sorted(d for d in dirs if d not in ("out", "data"))
        for n in sorted(names):
            if n.endswith(ends):
                yield os.path.join(folder, n)


def text(path):
    with open(path, encoding="utf-8") as f:
        return f.read()


def declared():
    found = collections.defaultdict(set)
    for p in files(".antt"):
        if p.endswith("/Proof.antt"):
            continue
        for line in text(p).splitlines():
            if line.lstrip().startswith("--"):
                continue
            m = DECLARED.match(line)
            if m:
                found[m[1]].add(p)
    return found


def in_specs(paths):
    return any("/specs/" in p for p in paths)


def snake(name, paths):
    if name[0].isupper() and "-" not in name:
        return name
    if name[0].isupper() and not name.replace("-", "").isupper():
        if in_specs(paths):
            return "".join(w[:1].upper() + w[1:] for w in name.split("-"))
        name = name.lower()
    return re.sub(r"(?<=[a-z0-9])[A-Z]", lambda m: "_" + m[0].lower(), name).replace("-", "_")


# Names that would fall together: the definition keeps the plain name, and a law, a part of a statement or a worked case gets an ending.
def apart(plain, names, found):
    def rank(n):
        return (in_specs(found[n]), "-" not in n, CAMEL.fullmatch(n) is not None)

    keeper = max(names, key=rank)
    to = {}
    for n in names:
        paths = found[n]
        ending = "_law" if not in_specs(paths) else "_case" if all("Cases" in p for p in paths if "/specs/" in p) else "_holds"
        to[n] = plain if n == keeper else plain + ending
    return to


def table(found):
    by = collections.defaultdict(list)
    for n, paths in found.items():
        by[snake(n, paths)].append(n)
    to = {}
    for plain, names in by.items():
        to.update({names[0]: plain} if len(names) == 1 else apart(plain, names, found))
    return {n: s for n, s in to.items() if n != s}


USE = re.compile(r"^(?:ghost )?use ([^\s{;]+?)\.?\{([^}]*)\}", re.M)


# The words that a text imports from the kit's libraries: they stay.
def lent(t):
    own = set(os.listdir("crates"))
    found = set()
    for m in USE.finditer(t):
        path = m[1].split(".")
        if path[0] != "Rattle" or path[1] not in own:
            found |= set(re.split(r"[,\s]+", m[2]))
    return found


def turned(t, to, token, comment):
    to = {n: s for n, s in to.items() if n not in lent(t)}

    def turn(m):
        w = m[0]
        # a name in snake case may be a function's too: a part of a path, or a word of the code, stays
        if w in to and "-" not in w and not CAMEL.fullmatch(w) and (comment == "//" or t[m.end():m.end() + 1] == "."):
            return w
        if w.startswith('"'):
            return w
        if w.startswith(comment):
            return WORD.sub(lambda v: to.get(v[0], v[0]) if CAMEL.fullmatch(v[0]) else v[0], w)
        return to.get(w, w)

    return token.sub(turn, t)


def main():
    found = declared()
    to = table(found)
    for n, s in sorted(to.items()):
        if snake(n, found[n]) != s:
            print("apart:", n, s, sorted(found[n]))
    for n in sorted(set(to.values()) & set(found) - set(to)):
        print("together:", n, sorted(found[n]))
    for p in files(".antt", ".rt"):
        t = text(p)
        words = {m[0] for m in TOKEN.finditer(t) if not m[0].startswith(('"', "--"))}
        for w in sorted(words):
            if w in to and to[w] in words:
                print("meets:", p, w, to[w])
    if "--report" in sys.argv:
        return
    for p in files(".antt"):
        t = text(p)
        n = turned(t, to, TOKEN, "--")
        if n != t:
            open(p, "w", encoding="utf-8").write(n)
    for p in files(".rt"):
        t = text(p)
        n = turned(t, to, RUST_TOKEN, "//")
        if n != t:
            open(p, "w", encoding="utf-8").write(n)


if __name__ == "__main__":
    main()

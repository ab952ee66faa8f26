#!/usr/bin/env python3
"""Turns the proofs by hand of a crate (Proof.antt, an older kit's form) into Invariants.antt and Answers.antt.

usage: convert.py NAMES CRATE [FUNCTION..]   NAMES is the folder that `rt names NAMES` wrote at the top of the repository

Answers that only say `search rules` are dropped: the check tries more by itself. What it could not turn is printed.
"""
import json
import os
import re
import sys

NAME = r"[^\s(){}.;,@\"«»]+"


def norm(s):
    return s.replace("_", "-").lower()


class Fn:
    def __init__(self, crate, rel, data):
        self.crate, self.rel, self.d = crate, rel, data
        self.dot = rel.replace("/", ".")
        self.places = data["places"]
        self.index = {}
        for i, p in enumerate(self.places):
            self.index.setdefault(norm(p[0]), i)
        self.new_place = {norm(p[0]): n for p, n in zip(self.places, data["places_by_name"])}
        self.needs = {}
        for (old, new), at in zip(data["needs"], data["asked_at"]):
            self.needs[norm(old)] = (new, at[0])
        self.left = []
        self.params = params_of(crate, rel)

    def need(self, old):
        o = norm(old)
        for c in (o, re.sub("^overflow-", "", o), re.sub("^slice-bounds-", "part-", o), re.sub("^bounds-", "index-", o)):
            if c in self.needs:
                return self.needs[c]
        return None

    def parent(self, i):
        p = self.places[i][1]
        if p is None:
            return None
        # the parent is the nearest place of that name before this one
        for j in range(i - 1, -1, -1):
            if self.places[j][0] == p:
                return j
        return self.index.get(norm(p))

    def chain(self, place):
        i = self.index.get(norm(place))
        while i is not None:
            yield i
            i = self.parent(i)

    # the new path of a step's fields, seen from a place
    def step(self, place, step, rest):
        for i in self.chain(place):
            old, new = self.places[i][2]
            if norm(old) != norm(step) and norm(old) != norm(re.sub("_(law|lem|case|holds)$", "", step)):
                continue
            arm = self.d["arms"][i] if i < len(self.d["arms"]) else None
            if arm:
                best = None
                for field, var, path in arm[2]:
                    if norm(var) == norm(step) and path and rest[: len(path)] == path:
                        if best is None or len(path) > len(best[1]):
                            best = (field, path)
                if best:
                    return [arm[0], best[0]] + rest[len(best[1]) :]
            callee = self.places[i][3]
            if callee and rest and rest[0] in ("new", "auto"):
                k = 1
                while k < len(rest) and rest[k] == "1":
                    k += 1
                params = self.d["params"].get(callee, [])
                if k < len(rest) and rest[k] == "0" and k - 1 < len(params):
                    return [new, rest[0], params[k - 1]] + rest[k + 1 :]
            return [new] + rest
        return None

    # `c` with its befores and fields, in today's form
    def path(self, place, var, parts, note):
        k = 0
        while k < len(parts) and parts[k] == "before":
            k += 1
        rest = parts[k:]
        if not rest:
            return None
        if rest[0] == "args" and len(rest) > 1 and re.fullmatch(r"t\d+", rest[1]) and self.params:
            n = int(rest[1][1:]) - 1
            if n < len(self.params):
                rest[1] = self.params[n]
        if rest[0] in ("args", "requires", "ranges", "well_formed", "type_inv", "utf8"):
            if rest[0] == "requires" and self.d.get("pre"):
                pass
            return ".".join([var] + rest)
        got = self.step(place, rest[0], rest[1:])
        if got is None:
            note(f"no step {rest[0]} above {place}")
            return ".".join([var] + parts)
        return ".".join([var] + got)


# the parameters of a function, from its source
def params_of(crate, rel):
    parts = rel.split("/")
    for f in (f"crates/{crate}/src/{'/'.join(parts[:-1])}.rt", f"crates/{crate}/src/lib.rt", f"crates/{crate}/src/main.rt"):
        if os.path.exists(f):
            m = re.search(r"fn %s\(([^)]*)\)" % parts[-1], open(f, encoding="utf-8").read())
            if m:
                return re.findall(r"(?:mut )?(\w+):", m[1])
    return []


def blocks(text):
    out, cur = [], []
    for line in text.split("\n"):
        if not line.strip():
            if cur:
                out.append(cur)
                cur = []
        else:
            cur.append(line)
    if cur:
        out.append(cur)
    # a blank line inside a block (an indented continuation) stays with it
    merged = []
    for b in out:
        if merged and b[0].startswith(" "):
            merged[-1] += [""] + b
        else:
            merged.append(b)
    return merged


PATH = re.compile(r"(?<![^\s(){}\[\],;])(%s)((?:\.%s)+)" % (r"[^\W\d][\w'-]*", r"[^\s(){}.;,@\"«»\[\]]+"))


class Turn:
    def __init__(self, fn):
        self.fn = fn
        self.helpers = {}
        # a helper over a place: its type and its body, in paths of `c`; what it unfolds; in the order of the file
        self.macros = {}

    # the helpers that a text uses, each before those that use it
    def used(self, text):
        names = [n for n in self.macros if re.search(r"(?<![^\s(){}\[\],;])%s(?![^\s(){}\[\],;.])" % re.escape(n), text)]
        out = []
        for n in names:
            for k in self.used(self.macros[n][0] + " " + self.macros[n][1]):
                if k not in out:
                    out.append(k)
            if n not in out:
                out.append(n)
        return out

    # an answer with the helpers that it uses as lets
    def with_lets(self, name, body):
        used = self.used(body)
        if not used:
            return body
        unfolds = sorted({u for n in used for u in self.macros[n][2]})
        lines = body.split("\n")
        if lines[0].startswith("unfolding"):
            have = lines[0].split()[1:]
            lines[0] = " ".join(["unfolding"] + have + [u for u in unfolds if u not in have])
        elif unfolds:
            lines.insert(0, " ".join(["unfolding"] + unfolds))
        text = "\n".join(lines)
        m = re.search(r"(?m)^%s c =" % re.escape(name), text)
        if not m:
            self.note(f"lets {used} left out of {name}")
            return body
        lets = "".join(f"\n    let {n} : {self.macros[n][0]} = {self.macros[n][1]} in" for n in used)
        return text[: m.end()] + lets + "\n    " + text[m.end() :].lstrip()

    def note(self, s):
        self.fn.left.append(s)

    # a text in which var stands for a place
    def body(self, text, place, var="c"):
        fn = self.fn
        alias = {var}
        # lets that name a place
        while True:
            m = re.search(r"let (\w+) = (%s)((?:\.before)*) in[ \n]\s*" % "|".join(sorted(alias)), text)
            if not m:
                break
            alias.add(m[1])
            text = text[: m.start()] + text[m.end() :]

        # whole places given to a helper
        def helper(m):
            name, arg = m[1], m[2]
            if name in self.helpers and arg.split(".")[0] in alias and all(x == "before" for x in arg.split(".")[1:]):
                return name
            return m[0]

        text = re.sub(r"(?<![^\s(){}])(%s) ((?:%s)(?:\.before)*)(?![\w.'-])" % (NAME, "|".join(sorted(alias))), helper, text)

        def path(m):
            if m[1] not in alias:
                return m[0]
            parts = m[2][1:].split(".")
            if all(p == "before" for p in parts):
                return m[0] if m[1] == var else var + m[2]
            return fn.path(place, var, parts, self.note) or m[0]

        text = PATH.sub(path, text)

        def arg(m):
            n = int(m[1]) - 1
            return "." + fn.params[n] if n < len(fn.params) else m[0]

        return re.sub(r"(?<=\w)\.t(\d+)(?![\w'-])", arg, text)


def convert(crate, rel, data):
    fn = Fn(crate, rel, data)
    base = f"crates/{crate}/proofs/{rel}"
    text = open(f"{base}/Proof.antt", encoding="utf-8").read()
    uses, invs, answers, comments = [], [], [], []
    turn = Turn(fn)
    bs = blocks(text)
    # which place each helper is about
    for b in bs:
        m = re.search(r"^(?:abbrev |unfoldable )?(%s) : (?:\(%s : )?tie\.(%s)(?: invariant-[^\s)]+| decreases-[^\s)]+)*\)? →" % (NAME, NAME, NAME), "\n".join(l for l in b if not l.startswith("--")))
        if m and not m[2].startswith("Need-"):
            turn.helpers[m[1]] = m[2]
    head = ""
    cited = {}
    for b in bs:
        m = re.match(r"(?:pub )?(%s) : tie\.Need-(\S+)" % NAME, next((l for l in b if not l.startswith("--")), ""))
        if m and fn.need(m[2]):
            cited[m[1]] = fn.need(m[2])[0]
    for b in bs:
        lead = [l for l in b if l.startswith("--")]
        rest = [l for l in b if not l.startswith("--")]
        if not rest:
            answers.append("\n".join(lead))
            continue
        if rest[0].startswith("use ") or rest[0].startswith("pub use "):
            if lead:
                head = "\n".join(lead)
            for l in "\n".join(rest).replace("\n ", " ").split("\n"):
                if f".{fn.dot}.Tie as tie" in l or f".{fn.dot}.Statement." in l:
                    continue
                uses.append(l)
            continue
        t = "\n".join(rest)
        m = re.match(r"(?:abbrev )?(?:pub )?((?:invariant|decreases)-\S+) : tie\.(\S+)", rest[0])
        if m:
            invs.append(invariant(fn, m[1], rest[1:], lead))
            continue
        if re.match(r"pub (%s) : \{M : Type 1\} → statement M" % NAME, rest[0]):
            continue
        m = re.match(r"(?:pub )?(%s) : tie\.Need-(\S+)" % NAME, rest[0])
        if m:
            old = m[1]
            got = fn.need(m[2])
            body = "\n".join(rest[1:])
            trivial = re.fullmatch(r"(?:unfolding [^\n]*\n)?%s c(?: κs)? =\s*search rules" % re.escape(old), body.strip()) is not None
            if got is None:
                if not trivial:
                    fn.left.append(f"no goal for {m[2]}: {body}")
                continue
            if trivial and not body.strip().startswith("unfolding"):
                continue
            new, place = got
            for o, n in cited.items():
                body = re.sub(r"(?<=[ (,{])%s(?= c(?![\w'-]))" % re.escape(o), n, body)
            body = re.sub(r"(?m)^%s(?= )" % re.escape(old), new, body)
            body = re.sub(r"(?m)^(%s c) κs(?= )" % re.escape(new), r"\1", body)
            if "κs" in body:
                fn.left.append(f"κs in {new}")
            body = turn.with_lets(new, turn.body(body, place))
            answers.append("\n".join(lead + [f"pub {new} : goal.{new}", body]))
            continue
        # a helper over a place
        m = re.match(r"(?:abbrev |unfoldable )?(%s) : (?:\((%s) : )?tie\.(%s)((?: invariant-[^\s)]+| decreases-[^\s)]+)*)\)? → " % (NAME, NAME, NAME), t)
        if m:
            name, place = m[1], m[3]
            lines = t[m.end() :].split("\n")
            k = next(i for i, l in enumerate(lines) if re.match(r"(?:unfolding |%s )" % re.escape(name), l))
            kind = " ".join(l.strip() for l in lines[:k])
            unfolds = []
            if lines[k].startswith("unfolding"):
                unfolds = lines[k].split()[1:]
                k += 1
            clause = "\n".join(lines[k:])
            c = re.match(r"%s (\S+)((?: \S+)*?) =(?=\s)" % re.escape(name), clause)
            if not c or re.search(r"(?m)^%s " % re.escape(name), clause[c.end() :]):
                fn.left.append(f"helper {name} has several clauses")
                answers.append("-- left: " + t.replace("\n", "\n-- "))
                continue
            body = clause[c.end() :].strip()
            kind = turn.body(kind, place, m[2] or c[1])
            body = turn.body(body, place, c[1])
            for v in {m[2], c[1]} - {None, "c"}:
                kind = re.sub(r"(?<![\w.'-])%s(?=\.)" % v, "c", kind)
                body = re.sub(r"(?<![\w.'-])%s(?=\.)" % v, "c", body)
            if c[2].strip():
                body = f"λ{c[2]}. {body}"
            turn.macros[name] = (kind, body, unfolds)
            continue
        answers.append("\n".join(lead + [t]))
    head = re.sub(r" Assumes nothing\.", "", head)
    if invs:
        with open(f"{base}/Invariants.antt", "w", encoding="utf-8") as f:
            f.write((head + "\n" if head else "") + "\n".join(uses) + f"\nuse Rattle.{crate}.proofs.{fn.dot}.Given as goal\n\n" + "\n\n".join(invs) + "\n")
    real = [a for a in answers if not all(l.startswith("--") for l in a.split("\n"))]
    if real:
        with open(f"{base}/Answers.antt", "w", encoding="utf-8") as f:
            f.write((head + "\n" if head else "") + "\n".join(uses) + f"\nuse Rattle.{crate}.proofs.{fn.dot}.Goals as goal\n\n" + "\n\n".join(real) + "\n")
    os.remove(f"{base}/Proof.antt")
    if not os.listdir(base):
        os.rmdir(base)
    for l in fn.left:
        print(f"left: {crate} {rel}: {l}")


def invariant(fn, old, clause, lead):
    kind = "invariant" if old.startswith("invariant") else "decreases"
    loop = old[len(kind) + 1 :]
    for ((o, n), names), changed in zip(fn.d["loops"], fn.d["changed"]):
        if norm(o) == norm(loop):
            break
    else:
        fn.left.append(f"no loop {loop}")
        return "\n".join(clause)
    # an unfolding line may stand first
    pre = [l for l in clause if l.startswith("unfolding")]
    text = "\n".join(l for l in clause if not l.startswith("unfolding"))
    m = re.match(r"%s((?: \S+)*?) =(?=[ \n])" % re.escape(old), text)
    if not m:
        fn.left.append(f"{old} is not one clause")
        return text
    args = m[1].split()
    body = text[m.end() :]
    to = {}
    if len(args) != len(names) + sum(changed):
        fn.left.append(f"{old} has {len(args)} arguments for {names} {changed}")
    k = len(names)
    for i, name in enumerate(names):
        if i < len(args):
            to[args[i]] = f"l.initial.{name}" if changed[i] else f"l.{name}"
    for i, name in enumerate(names):
        if changed[i]:
            if k < len(args):
                to[args[k]] = f"l.{name}"
            k += 1
    to.pop("_", None)
    for a in to:
        if re.search(r"λ[^.]*(?<![\w'])%s(?![\w'])" % re.escape(a), body):
            fn.left.append(f"{old} binds {a} again")

    def tok(w):
        return to.get(w[0], w[0])

    # a name at the head of a path turns; a field does not
    body = re.sub(r"(?<![^\s(){};,@\[\]])%s" % NAME, tok, body)
    return "\n".join(lead + [f"abbrev pub {kind}-{n} : goal.{kind}-{n}"] + pre + [f"{kind}-{n} l =" + body])


def main():
    names, crate = sys.argv[1], sys.argv[2]
    only = set(sys.argv[3:])
    data = json.load(open(f"{names}/crates/{crate}/names.json"))
    for key, d in sorted(data.items()):
        m = re.fullmatch(r"Rattle-%s-proofs\.(.*)\.Lts" % crate, key)
        if not m:
            continue
        rel = m[1].replace(".", "/")
        if only and rel not in only:
            continue
        if os.path.exists(f"crates/{crate}/proofs/{rel}/Proof.antt"):
            convert(crate, rel, d)


main()

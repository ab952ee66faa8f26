#!/usr/bin/env python3
"""Brings the edits (crates/*/must-fail/*.edit and crates/*/wrong/*.edit) to today's spelling.

usage, at the top of the repository, whose edits still have the old spelling:
    edits.py make COMMIT ROOM     makes a repository at ROOM: the crates of COMMIT and, beside each file, a copy for each edit that changes it.
                                  Edits that do not fit COMMIT are left out: make another ROOM for them. Then run the kit's port.py in ROOM.
    edits.py spell ROOM NAMES     gives the files in ROOM our own names, by the table of the definitions in NAMES, which is a ROOM too
    edits.py take ROOM            writes the edits of ROOM anew: what differs between a ported file and its ported copy, found in the file here
    edits.py check                prints the edits that do not fit the files here
"""
import difflib
import json
import os
import re
import subprocess
import sys

import spell

# Names that port.py and spell.py left, by words.
LEFT = {
    "clockKind": "clock_kind", "netKind": "net_kind", "rawKind": "raw_kind", "stopBib": "stop_bib", "stopChannel": "stop_channel",
    "stopRun": "stop_run", "ofWhole": "of_whole", "physicalChannel": "physical_channel", "ruleA": "rule_a", "ruleB": "rule_b",
    "placeAfter": "place_after", "addressShown": "address_shown", "builtOf": "built_of",
}  # fmt: skip
TOKEN = re.compile(r"\n|[\w'-]+|[^\w\s]")
COPY = re.compile(r"(?:zz_|Zz)\d+_?")


def git(*words):
    return subprocess.run(["git", *words], capture_output=True, text=True, check=True).stdout


def edits():
    return sorted(p for p in git("ls-files", "crates").split() if p.endswith(".edit"))


def pairs(text):
    """The changes of an edit: file, old and new text."""
    file, old, found = None, None, []
    for line in text.splitlines():
        if line.startswith("file: "):
            file = line[6:]
        elif line.startswith("old: "):
            old = line[5:]
        elif line.startswith("new:"):
            found.append((file, old, line[4:].removeprefix(" ")))
    return found


def changed(edit, read):
    """The files as the edit makes them, by their paths, or why it does not fit."""
    texts, top = {}, os.path.dirname(os.path.dirname(edit))
    for file, old, new in pairs(spell.text(edit)):
        path = f"{top}/{file}"
        try:
            text = texts[path] if path in texts else read(path)
        except OSError:
            return None, f"no file {file}"
        if text.count(old) != 1:
            return None, f"{file} has it {text.count(old)} times: {old}"
        texts[path] = text.replace(old, new)
    return texts, None


def applied(text, made):
    """The text after pairs of old and new text, or None where one does not fit."""
    for old, new in made:
        if text.count(old) != 1:
            return None
        text = text.replace(old, new)
    return text


def make(commit, room):
    os.makedirs(room)
    archive = subprocess.run(["git", "archive", commit, "crates", "crates.txt"], stdout=subprocess.PIPE, check=True).stdout
    subprocess.run(["tar", "-x", "-C", room], input=archive, check=True)
    rows = []
    for number, edit in enumerate(edits()):
        texts, _ = changed(edit, lambda path: spell.text(f"{room}/{path}"))
        for path, text in (texts or {}).items():
            folder, name = os.path.split(path)
            copy = f"{folder}/" + (f"zz_{number:04}_{name}" if name.endswith(".rt") else f"Zz{number:04}{name}")
            with open(f"{room}/{copy}", "w", encoding="utf-8") as f:
                f.write(text)
            rows.append((edit, path, copy))
    with open(f"{room}/copies.json", "w") as f:
        json.dump(rows, f, indent=0)
    for words in (["init", "-q"], ["add", "-A"], ["commit", "-qm", "copies"]):
        subprocess.run(["git", "-C", room, *words], check=True)


def respell(room, names):
    """Our own names, in the files of ROOM. The table is that of NAMES, as port.py left it or as it was written there."""
    top = os.getcwd()
    os.chdir(names)
    if os.path.exists("names.json"):
        to = json.load(open("names.json"))
    else:
        found = {n: {p for p in paths if not COPY.match(os.path.basename(p))} for n, paths in spell.declared().items()}
        to = spell.table({n: paths for n, paths in found.items() if paths})
    os.chdir(top)
    os.chdir(room)
    left = re.compile("|".join(rf"\b{w}\b" for w in LEFT))
    for p in spell.files(".antt", ".rt"):
        was = spell.text(p)
        by = (spell.TOKEN, "--") if p.endswith(".antt") else (spell.RUST_TOKEN, "//")
        text = left.sub(lambda m: LEFT[m[0]], spell.turned(was, to, *by))
        if text != was:
            with open(p, "w", encoding="utf-8") as f:
                f.write(text)
    with open("names.json", "w") as f:
        json.dump(to, f, indent=0, sort_keys=True)
    os.chdir(top)


def tokens(text):
    """The tokens of a text with their places; ends of lines are left out."""
    found = [m for m in TOKEN.finditer(text) if m[0] != "\n"]
    return [m[0] for m in found], [m.span() for m in found]


def hunks(a, b):
    """Where two lists of tokens differ. Places that are at most two tokens apart are one."""
    start = 0
    while start < min(len(a), len(b)) and a[start] == b[start]:
        start += 1
    end = 0
    while end < min(len(a), len(b)) - start and a[-1 - end] == b[-1 - end]:
        end += 1
    a, b = a[start : len(a) - end], b[start : len(b) - end]
    found = []
    for kind, i, j, k, l in difflib.SequenceMatcher(None, a, b, False).get_opcodes():
        if kind == "equal":
            continue
        if found and i + start - found[-1][1] <= 2:
            found[-1][1], found[-1][3] = j + start, l + start
        else:
            found.append([i + start, j + start, k + start, l + start])
    return found


def stood(text):
    """The tokens of a text, their places in it, and where each word stands among them."""
    words, spans = tokens(text)
    at = {}
    for n, word in enumerate(words):
        at.setdefault(word, []).append(n)
    return words, spans, at


def places(part, whole, at):
    """Where the tokens `part` stand in `whole`; `at` lists the places of each token in it."""
    n = len(part)
    return [i for i in at.get(part[0], []) if whole[i : i + n] == part]


def joined(found, spans, text, count):
    """The places that differ, at most `count` of them where those on one line can be taken as one."""
    found = [[*it] for it in found]
    while len(found) > count:
        gaps = [(b[0] - a[1], n) for n, (a, b) in enumerate(zip(found, found[1:])) if "\n" not in text[spans[a[0]][0] : spans[b[0] - 1][1]]]
        if not gaps:
            break
        n = min(gaps)[1]
        found[n][1], found[n][3] = found[n + 1][1], found[n + 1][3]
        del found[n + 1]
    return found


def written(here, old_file, new_file, hints):
    """The changes as pairs of old and new text for the file here, and what could not be placed."""
    t, tp, at = stood(here)
    (a, ap), (b, bp) = tokens(old_file), tokens(new_file)
    made, lost = [], []
    found = joined(hunks(a, b), ap, old_file, len(hints))
    for n, (i, j, k, l) in enumerate(found):
        best = None
        # windows round the change, those first that are nearest to the extents of the edit's own text
        near = [hints[n]] if len(found) == len(hints) else hints
        far = lambda w: min(abs(w[0] - p) + abs(w[1] - s) for p, s in near) + 3 * (w[0] > 0 and a[i - w[0]] in ")].,;=+:")
        for p, s in sorted(((p, s) for p in range(min(25, i + 1)) for s in range(25)), key=far):
            if j + s > len(a) or i - p == j + s:
                continue
            part = a[i - p : j + s]
            stand = places(part, t, at)
            if len(stand) != 1:
                continue
            first, last = stand[0], stand[0] + len(part) - 1
            old = here[tp[first][0] : tp[last][1]]
            if "\n" in old or here.count(old) != 1:
                continue
            head = here[tp[first][0] : tp[first + p - 1][1]] if p else ""
            tail = here[tp[last - s + 1][0] : tp[last][1]] if s else ""
            # what is new stands as in the copy, with the spaces round it
            begin = bp[k - 1][1] if p else bp[k][0] if k < l else 0
            end = bp[l][0] if s else bp[l - 1][1] if k < l else begin
            middle = re.sub(r"\s*\n\s*", " ", new_file[begin:end]) if p or k < l else ""
            best = (old, head + middle + tail)
            break
        if best:
            made.append(best)
            # the next pair applies to what this one makes
            here = here.replace(*best)
            t, tp, at = stood(here)
        else:
            lost.append((" ".join(a[max(i - 3, 0) : j + 3]), " ".join(b[max(k - 3, 0) : l + 3])))
    return made, lost


def extents(text, file):
    """For each pair of the edit, how many tokens of the old text stand before and after what is changed."""
    found = []
    for path, old, new in pairs(text):
        if path == file:
            a, b = tokens(old)[0], tokens(new)[0]
            differ = hunks(a, b) or [(0, len(a), 0, 0)]
            found.append((differ[0][0], len(a) - differ[-1][1]))
    return found


def take(room):
    rows = json.load(open(f"{room}/copies.json"))
    to = json.load(open(f"{room}/names.json"))
    by = {}
    for edit, path, copy in rows:
        by.setdefault(edit, []).append((path, copy))
    for edit, files in by.items():
        text, top = spell.text(edit), os.path.dirname(os.path.dirname(edit))
        comments = [l for l in text.splitlines() if not l.startswith(("file: ", "old: ", "new:"))]
        comments = [spell.WORD.sub(lambda m: to.get(m[0], m[0]) if spell.CAMEL.fullmatch(m[0]) else m[0], l) for l in comments]
        lines = comments
        for path, copy in files:
            file = path[len(top) + 1 :]
            try:
                here = spell.text(path)
            except OSError:
                print(f"{edit}: no file {file}")
                continue
            hints = extents(text, file)
            made, lost = written(here, spell.text(f"{room}/{path}"), spell.text(f"{room}/{copy}"), hints)
            # a comment that gave its place to an import, which stands among the others now
            made = [it for it in made if it[1] or not it[0].startswith(("--", "//"))]
            own = [(old, new) for it, old, new in pairs(text) if it == file]
            was, now = applied(here, own), applied(here, made)
            if was and (lost or tokens(was)[0] == tokens(now)[0]):
                # the pairs as they are still fit
                made, lost = own, []
            lines = [*lines, f"file: {file}"]
            for old, new in made:
                lines += [f"old: {old}", f"new: {new}".rstrip()]
            for old, new in lost:
                print(f"{edit}: {file}: not placed: {old} => {new}")
            if len(made) != len(hints):
                print(f"{edit}: {file}: {len(hints)} changes became {len(made)}")
        with open(edit, "w", encoding="utf-8") as f:
            f.write("\n".join(lines) + "\n")


def check():
    bad = 0
    for edit in edits():
        texts, why = changed(edit, spell.text)
        if why:
            bad += 1
            print(f"{edit}: {why}")
    print(f"{len(edits())} edits, {bad} do not fit")
    return bad


def main(words):
    if words[:1] == ["make"] and len(words) == 3:
        make(*words[1:])
    elif words[:1] == ["spell"] and len(words) == 3:
        respell(*words[1:])
    elif words[:1] == ["take"] and len(words) == 2:
        take(words[1])
    elif words == ["check"]:
        return 1 if check() else 0
    else:
        print(__doc__)
        return 2


if __name__ == "__main__":
    raise SystemExit(main(sys.argv[1:]) or 0)

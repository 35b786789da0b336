#!/usr/bin/env python3
"""Spells the names of this repository's own definitions and lemmas as Rattle's library spells its own.

usage: python3 tools/respell.py        at the top, after port.py and before its changes are committed

A word of a name is in snake case; a name that is a type keeps its capital. A dash stays only between the names of
two definitions, as in bit_at-take. What is declared in crates/*/specs and crates/*/proofs is respelled, wherever it
stands in crates/, in must-fail edits and in the code spans of README.md and docs/. Names of src/ are left alone, and so
are the names in a function's own proof (proofs/*/Proof.antt), which Rattle asks for. It stops if two names would meet.
"""

import glob
import os
import re
import subprocess
import sys

WORD = r'[^\s(){}.;,@"«»]+'
DECLARED = re.compile(
    rf"^ *((?:pub |abbrev |unfoldable |data |record |ruleset |mutual )*)({WORD})(?: \{{[^{{}}\n]*\}}| \([^()\n]*\))* :(?=\s|$)"
)
# Words of the library that a lemma of this repository may be about.
LIBRARY = set("length take drop append replicate get_or set map sum reverse cond min max pow".split())


def antt():
    found = glob.glob("crates/*/specs/**/*.antt", recursive=True) + glob.glob("crates/*/proofs/**/*.antt", recursive=True)
    return sorted(found)


def declared(text):
    for line in text.split("\n"):
        m = None if line.lstrip().startswith("--") else DECLARED.match(line)
        if m:
            yield m[1].split(), m[2]


def is_walk(path):
    return path.endswith("/Proof.antt")


def before(path):
    """The file as it was committed, that is before port.py."""
    r = subprocess.run(["git", "show", "HEAD:" + path], capture_output=True, text=True)
    return r.stdout if r.returncode == 0 else None


def snake(part):
    """One part of a name, between dashes."""
    if part[:1].isupper():
        return part
    return re.sub(r"(?<=[a-z0-9])([A-Z])", lambda m: "_" + m[1].lower(), part)


def spelled(name, definitions):
    """The parts of a name are put together again, from the left: a dash between two definitions, else an underscore."""
    parts = [snake(p) for p in name.split("-")]
    out = [parts[0]]
    for part in parts[1:]:
        if part in definitions and (out[-1] in definitions or out[-1].rsplit("-", 1)[-1] in definitions):
            out.append(part)
        else:
            out[-1] += "_" + part
    return "-".join(out)


def main():
    texts = {p: open(p, encoding="utf-8").read() for p in antt()}
    definitions = set(LIBRARY)
    names, defined = set(), set()
    for p, t in texts.items():
        if is_walk(p):
            continue
        for how, name in declared(t):
            names.add(name)
            if {"abbrev", "unfoldable"} & set(how):
                definitions.add(snake(name))
                defined.add(name)
    spelling = {}
    for name in sorted(names):
        if re.search(r"[a-z0-9][A-Z]", name) and not name[0].isupper() or "-" in name:
            new = spelled(name, definitions)
            if new != name:
                spelling[name] = new
    # A name that would meet another one of its file keeps its dashes; a lemma without them gets _lem.
    met = []
    for again in (True, False):
        for p, t in texts.items():
            if is_walk(p):
                continue
            seen = {}
            for w in set(re.findall(WORD, t)):
                seen.setdefault(spelling.get(w, w), set()).add(w)
            for new, olds in seen.items():
                if len(olds) > 1:
                    if not again:
                        met.append(f"in {p}: {', '.join(sorted(olds))}")
                    for w in olds:
                        if w == new and w in names and w not in defined:
                            print(f"respell: in {p} {w} would meet another name")
                            spelling[w] = w + "_lem"
                        elif "-" in w:
                            print(f"respell: in {p} {w} would meet another name")
                            spelling[w] = "-".join(snake(part) for part in w.split("-"))
    if met:
        sys.exit("respell: these names meet: " + "; ".join(met))
    # What port.py respelled, for pages and edits, which it leaves.
    landed = dict(spelling)
    for p, t in texts.items():
        old = before(p)
        if old is None or is_walk(p):
            continue
        olds, news = [n for _, n in declared(old)], [n for _, n in declared(t)]
        if len(olds) == len(news):
            for a, b in zip(olds, news):
                b = spelling.get(b, b)
                if a != b and ("-" in a or re.search(r"[a-z0-9][A-Z]|′", a)):
                    landed[a] = b

    def turned(text, table):
        return re.sub(WORD, lambda m: table.get(m[0], m[0]), text)

    def comment(text, code):
        """In a comment a name turns if it is no plain word: one with a capital inside, or one that the code of its file has."""
        return re.sub(WORD, lambda m: spelling[m[0]] if m[0] in spelling and (m[0] in code or re.search("[a-z][A-Z]", m[0])) else m[0], text)

    changed = 0
    for p in list(texts) + sorted(glob.glob("crates/*/src/**/*.rt", recursive=True)):
        old = texts.get(p) or open(p, encoding="utf-8").read()
        mark = "//" if p.endswith(".rt") else "--"
        cut = re.compile(rf"(?m)(?<![^\s]){re.escape(mark)}[^\n]*")
        code = set(re.findall(WORD, cut.sub("", old)))
        out, at = [], 0
        for m in cut.finditer(old):
            out += [turned(old[at : m.start()], spelling), comment(m[0], code)]
            at = m.end()
        new = "".join(out) + turned(old[at:], spelling)
        if new != old:
            changed += 1
            open(p, "w", encoding="utf-8").write(new)
    for p in sorted(glob.glob("crates/*/must-fail/*.edit")):
        old = open(p, encoding="utf-8").read()
        new = turned(old, landed)
        if new != old:
            changed += 1
            open(p, "w", encoding="utf-8").write(new)
    for p in ["README.md"] + sorted(glob.glob("docs/*.md")):
        old = open(p, encoding="utf-8").read()
        new = re.sub(r"`[^`\n]+`", lambda m: turned(m[0][1:-1], landed).join("``") if "/" not in m[0] else m[0], old)
        if new != old:
            changed += 1
            open(p, "w", encoding="utf-8").write(new)
    print(f"respell: {len(spelling)} names, {changed} files")


main()

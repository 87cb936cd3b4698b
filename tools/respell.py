#!/usr/bin/env python3
"""Brings the repository's own definitions and lemmas to snake case: `fileOf` to `file_of`, `file-taken` to `file_taken`, `\u2032` to `'`.

usage: python3 tools/respell.py            at the top of a checkout, once, right after port.py
       python3 tools/respell.py --together at the top: lists names that fall together, and writes nothing

What it renames are names that an .antt file of the repository gives: definitions, lemmas, fields and what stands under `where`. Types and modules keep their names,
and so do functions, fields and constants of src/, strings, and names that Rattle makes for a goal.
It goes over .antt and .rt files, must-fail edits, the pages of docs/, README.md and .ci/ (there only between backquotes or as whole words of a list).
"""
import collections
import glob
import re
import sys

GIVES = re.compile(r"^\s*(?:(?:abbrev|unfoldable|pub)\s+)*([a-z][\w'\u2032\u00b7-]*(?:-[^\s:(){},.;\u25cc]+)?)(?:\s+[({][^:]*:[^)}]*[)}])*\s*:(?!=)")
PARAMETER = re.compile(r"[({]([a-z][\w'\u2032 -]*?)\s*:")
NAME = re.compile(r"[A-Za-z_\u03b1-\u03c9][\w'\u2032\u00b7]*(?:-[\w'\u2032\u00b7\u2264<\u2286\u2229\u222a\u2208\u2209\u2261+*/\u2216\u2192\u2194\u2260\u2262]+)*")
LIBRARY = {"bit_and", "bit_or", "bit_xor"}
MADE = re.compile(r"(returns|overflow|bounds|slice|loop|if|in|then|else|offset|nonzero|prove|invariant|decreases|shared|mut)(-.*)?$")


def snake(name):
    name = name.replace("\u2032", "'")
    name = re.sub(r"\bgetD\b", "get_or", name)
    name = name.replace("-", "_")
    name = re.sub(r"(?<=[a-z0-9])([A-Z])(?![A-Z])", lambda m: "_" + m.group(1).lower(), name)
    return name


def given():
    names = collections.defaultdict(set)
    for path in sorted(glob.glob("crates/*/specs/**/*.antt", recursive=True) + glob.glob("crates/*/proofs/**/*.antt", recursive=True)):
        hand = path.endswith("/Proof.antt") or path.endswith("/Answers.antt")
        for line in open(path, encoding="utf-8"):
            code = line.split("--")[0]
            m = GIVES.match(code)
            if not m or re.match(r"\s*(use|module|record|data|import)\b", code):
                continue
            name = m.group(1)
            if hand and MADE.match(name) and not name.endswith("-spec"):
                continue
            if snake(name) != name:
                names[name].add(path)
    return names


def files():
    yield from sorted(glob.glob("crates/*/**/*.antt", recursive=True) + glob.glob("crates/*/**/*.rt", recursive=True) + glob.glob("crates/*/must-fail/*.edit"))


def library():
    """Names that files import from Rattle's library: they keep their spelling."""
    own = {p.split("/")[1] for p in glob.glob("crates/*/src")}
    theirs = set()
    for path in files():
        if path.endswith(".edit"):
            continue
        for m in re.finditer(r"^\s*(?:pub )?(?:ghost )?use ([\w.\u00b7]+)\.\{([^}]*)\}", open(path, encoding="utf-8").read(), re.M):
            first = m.group(1).split(".")
            if first[0] == "Rattle" and len(first) > 1 and first[1] in own:
                continue
            theirs |= {w.split(" as ")[0].strip() for w in m.group(2).split(",")}
    return theirs


def main():
    names = given()
    theirs = library()
    for n in sorted(set(names) & theirs):
        print("kept, since the library has it:", n)
        del names[n]
    to = {n: snake(n) for n in names}
    # A lemma that would have its definition's name gets `_lem`.
    defined = {snake(n) for n in names if "-" not in n} | LIBRARY
    for n in names:
        if "-" in n and to[n] in defined:
            to[n] += "_lem"
    back = collections.defaultdict(set)
    for n, t in to.items():
        back[t].add(n)
    plain = set()
    for path in files():
        text = open(path, encoding="utf-8").read()
        for line in text.split("\n"):
            plain |= {w for w in NAME.findall(line.split("--")[0].split("//")[0]) if w not in to}
    for t, ns in sorted(back.items()):
        if len(ns) > 1 or t in plain:
            print("fall together:", t, sorted(ns), "and a plain name" if t in plain else "")
    if "--together" in sys.argv:
        return
    for path in files():
        text = open(path, encoding="utf-8").read()
        new = NAME.sub(lambda m: to.get(m.group(0), m.group(0)), text)
        if new != text:
            open(path, "w", encoding="utf-8").write(new)
    for path in sorted(glob.glob("docs/**/*.md", recursive=True) + ["README.md"]):
        text = open(path, encoding="utf-8").read()
        new = re.sub(r"`[^`\n]+`", lambda q: NAME.sub(lambda m: to.get(m.group(0), m.group(0)), q.group(0)), text)
        if new != text:
            open(path, "w", encoding="utf-8").write(new)
    path = ".ci/guarded.txt"
    text = open(path, encoding="utf-8").read()
    new = NAME.sub(lambda m: to.get(m.group(0), m.group(0)), text)
    if new != text:
        open(path, "w", encoding="utf-8").write(new)


main()

#!/usr/bin/env python3
"""Brings the repository's own names of definitions, fields and lemmas to the spelling of today's Rattle.

usage: tools/respell.py [DRY]     at the top of a repository that port.py has turned

A definition, a field or a lemma is in snake case; a dash stays in the name of a lemma that is made of names of definitions of specs/ or
of the library alone, as in `length-drop`.
Functions of src/, exported names, types, modules and generated names keep theirs. With an argument nothing is written.
"""

import glob
import os
import re
import sys

WORD = r"[A-Za-z_][A-Za-z0-9_'\-]*"
DECLARED = re.compile(r"^(\s*)(?:abbrev\s+|unfoldable\s+)?(?:pub\s+)?(" + WORD + r"(?:\s+" + WORD + r")*)\s+:\s")
# Functions of the library whose names stand in lemmas.
LIBRARY = "length append map set take drop replicate get_or".split()
# Names that the library has too.
KEPT = {"and-true"}
# Lemmas that would have the name of a definition.
SUFFIX = "_lem"


def snake(name):
    name = re.sub(r"([a-z0-9])([A-Z])", r"\1_\2", name)
    return name.lower() if re.match(r"[a-z]", name) else name


def sources():
    """The files that state definitions and lemmas of our own; proofs of single functions are left out."""
    for p in sorted(glob.glob("crates/*/specs/**/*.antt", recursive=True) + glob.glob("crates/*/proofs/**/*.antt", recursive=True)):
        if os.path.basename(p) not in ("Proof.antt", "Invariants.antt") and not re.search(r"/proofs/(.*/)?[a-z_+][^/]*/", p):
            yield p


def declared():
    """Each declared name; the definitions of specs/, but for the laws in files named Inside; the fields of specs/."""
    names, functions, fields = {}, set(LIBRARY), set()
    for p in sources():
        in_specs = "/specs/" in p
        for line in open(p, encoding="utf-8"):
            m = DECLARED.match(line)
            if not m or line.lstrip().startswith("--"):
                continue
            for n in m.group(2).split():
                names.setdefault(n, set()).add("specs" if in_specs else "proofs")
                if in_specs and "-" not in n and not m.group(1) and os.path.basename(p) != "Inside.antt":
                    functions.add(n)
                if in_specs and m.group(1):
                    fields.add(n)
    return names, functions, fields


def renamed(names, functions, fields):
    turned = {}
    for n in sorted(names):
        if not re.match(r"[a-z]", n) or n in ("abbrev", "pub", "unfoldable"):
            continue
        parts = n.split("-")
        joined = n not in fields and all(p in functions for p in parts)
        to = ("-" if joined else "_").join(snake(p) for p in parts)
        turned[n] = to
    # names that fall together: one is the definition, the other a lemma that gets a suffix
    by = {}
    for n, to in turned.items():
        by.setdefault(to, []).append(n)
    for to, ns in by.items():
        if len(ns) > 1:
            print("fall together:", to, ns)
            for n in ns:
                if n not in functions and not re.search("[A-Z]", n):
                    turned[n] = to + SUFFIX
    return {n: to for n, to in turned.items() if n != to and n not in KEPT}


TOKEN = re.compile(r"(?<![A-Za-z0-9_'\-])" + WORD)


def chain_of(text, m):
    """What stands before the word, up to the last space."""
    at = m.start()
    start = at
    while start > 0 and re.match(r"[A-Za-z0-9_'\-.]", text[start - 1]):
        start -= 1
    return text[start:at]


def path(text, m):
    return chain_of(text, m).startswith("Rattle.")


def generated(text, m):
    """A step of a proof by hand, as in `c.before.used-word`, or the goal's own name."""
    chain = chain_of(text, m)
    return path(text, m) or bool(re.match(r"(c|w|l)\.|tie\.|goal\.", chain)) and ".ensures" not in chain


def swapped(text, table, skip=path):
    return TOKEN.sub(lambda m: m.group(0) if skip(text, m) else table.get(m.group(0), m.group(0)), text)


def main():
    dry = len(sys.argv) > 1
    stated = set(sources())
    names, functions, fields = declared()
    table = renamed(names, functions, fields)
    for p in sorted(glob.glob("crates/*/**/*", recursive=True)):
        if not os.path.isfile(p) or "/out/" in p or not p.endswith((".antt", ".rt", ".edit")):
            continue
        text = open(p, encoding="utf-8").read()
        if p.endswith(".rt"):
            camel = {n: to for n, to in table.items() if re.search("[A-Z]", n) and "-" not in n}
            new = swapped(text, camel)
        elif os.path.basename(p) in ("Proof.antt", "Answers.antt", "Invariants.antt") and p not in stated:
            # what the proof of a function declares keeps its name
            own = set(re.findall(r"^(?:abbrev )?(?:pub )?(" + WORD + r") :", text, re.M))
            new = swapped(text, {n: to for n, to in table.items() if n not in own}, generated)
        elif p.endswith(".edit"):
            # only edits of definitions have such names
            new = swapped(text, table) if "specs/" in text else text
        else:
            new = swapped(text, table)
        if new != text and not dry:
            open(p, "w", encoding="utf-8").write(new)
    for n in sorted(table):
        print(n, table[n])


main()

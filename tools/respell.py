#!/usr/bin/env python3
"""Brings the repository's own definitions, fields and lemmas to the spelling of today's Rattle.

usage: python3 tools/respell.py        at the top of the repository, once, after /opt/rattle/port/port.py

Functions, fields, constructors and lemmas that stand in crates/*/specs and crates/*/proofs get snake case; types and
modules keep their camel case. A lemma that would get the name of another thing in one of its files gets `_lem` behind
it. Names that Rattle makes (the goals of a proof file) and the library's names stay, and so do the functions of src/.
Says each name that it turned, and stops where two names of one file would fall together.
"""

import glob
import re
import sys

LETTERS = r"[\w'-]"
WORD = re.compile(rf"(?<!{LETTERS})[A-Za-z_]{LETTERS}*")
DECLARED = re.compile(r"^\s*(?:(?:pub|abbrev|unfoldable) )*([a-z][\w'-]*) :(?!=)(?=\s|$)")
GOAL = re.compile(r"\bgoal\.([\w'-]+)")


def snake(name):
    name = re.sub(r"(?<=[a-z0-9])([A-Z])", lambda m: "_" + m[1].lower(), name)
    return name.replace("-", "_")


def meets(name, to, own, words):
    """Is there a file with this name, and with another of our own that is the new one or becomes it? A lemma gives way."""
    others = {o for o in own if o != name and snake(o) == to and ("-" in name or "-" not in o)}
    return any(name in w and w & others for w in words.values())


def main():
    antt = [p for d in ("specs", "proofs") for p in glob.glob(f"crates/*/{d}/**/*.antt", recursive=True)]
    text = {}
    for path in sorted(antt + glob.glob("crates/*/src/**/*.rt", recursive=True)):
        with open(path, encoding="utf-8") as f:
            text[path] = f.read()
    words = {p: set(WORD.findall(text[p])) for p in antt}
    goals = {g for p in antt for g in GOAL.findall(text[p])}
    own = {m[1] for p in antt for line in text[p].split("\n") if (m := DECLARED.match(line))} - goals
    turned = {}
    for name in sorted(n for n in own if snake(n) != n):
        to = snake(name)
        if "-" in name and meets(name, to, own, words):
            to += "_lem"
        if meets(name, to, own, words):
            sys.exit(f"respell: {name} would fall together with another {to}")
        turned[name] = to
    for path, before in text.items():
        after = WORD.sub(lambda m: turned.get(m[0], m[0]), before)
        if after != before:
            with open(path, "w", encoding="utf-8") as f:
                f.write(after)
    for name, to in turned.items():
        print(f"{name} -> {to}")


main()

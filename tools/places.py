#!/usr/bin/env python3
"""Lists the places in crates/*/src that a reader of today's Rattle would write otherwise.

    python3 tools/places.py [COMMIT]

goes by text alone: of the commit, or of what lies in the folder. A line for each place, and a count for each point.
"""
import collections
import pathlib
import re
import subprocess
import sys

ROOT = pathlib.Path(__file__).resolve().parent.parent


def sources(commit):
    """The text of each source file, by its path."""
    if commit is None:
        for path in sorted(ROOT.glob("crates/*/src/**/*.rt")):
            yield str(path.relative_to(ROOT)), path.read_text()
        return
    git = lambda *words: subprocess.run(["git", "-C", ROOT, *words], check=True, capture_output=True, text=True).stdout
    for path in git("ls-tree", "-r", "--name-only", commit, "crates").splitlines():
        if re.fullmatch(r"crates/\w+/src/.*\.rt", path):
            yield path, git("show", f"{commit}:{path}")


def matches(files, pattern):
    """Each match of the pattern: its file, its line and its first line of text."""
    for path, text in files:
        for found in re.finditer(pattern, text, re.M):
            line = text.count("\n", 0, found.start()) + 1
            yield f"{path}:{line}: {found.group(0).strip().splitlines()[0]}"


PATTERNS = {
    "1 options and results taken apart or made by hand": [
        r"let Some\(.*\) = .* else \{\n\s*return Err\(",
        r"Some\(\w+\) => Err\(",
        r"Some\(\w+\) => Some\(",
        r"Err\(_\) => Err\(",
        r"return None;",
        r"if let Some\(\w+\) = .* \{\n\s*return (Err|Some)\(",
        r"return Err\(NoRoom \{",
        r"\} else \{\n\s*(None|Err\(.*\))\n",
        r"if !\w+\(.*\) \{\n\s*return Err\(ManagerFault::NoRoom\);",
        r"^// .*, or 16 where there is none\.",
    ],
    "3 loops over an index": [r"^\s*(for \w+ in [^{\n]*\.\.[^{\n]*|while [^{\n]*|loop) \{"],
    "4 equality, conversion and printing by hand": [
        r"\.number\(\) (==|!=) .*",
        r"^.*[\w)\]] as (u8|u16|usize)\b.*",
        r"^(pub )?fn (refused|done|value|lost)\b.*",
    ],
    "6 arrays with a length beside them": [r"^    (pub )?\w+: \[[\w ]+; \d+\],"],
    "7 switches on a step, tables of functions": [r"match (step|stage|state|kind)\b.*", r": fn\(.*", r"\bdyn \w+"],
}


def twins(files):
    """Names of functions that stand in two files: twins, but where they are methods of a trait and its impls, or of types that
    have different fields. Which they are has to be read."""
    places = collections.defaultdict(list)
    for path, text in files:
        for found in re.finditer(r"^\s*(?:pub(?:\(crate\))? )?fn (\w+)", text, re.M):
            places[found.group(1)].append(f"{path}:{text.count(chr(10), 0, found.start()) + 1}")
    ordinary = {"main", "fmt", "next"}
    for name, at in sorted(places.items()):
        if len(at) > 1 and name not in ordinary:
            yield f"{name}: {', '.join(at)}"


def repeated(files):
    """Facts that stand in three contracts or more, and parameters that travel together through three functions or more."""
    facts, pairs = collections.Counter(), collections.Counter()
    for path, text in files:
        for found in re.finditer(r"^\s*(requires|ensures) (?:\w+ )?\{ (.*) \};?$", text, re.M):
            facts[re.sub(r"\b_?(self|tables|locks|values)\.(old|now)\b", r"\1", found.group(2))] += 1
        for found in re.finditer(r"fn \w+(?:<[^(]*>)?\(([^)]*)\)", text):
            names = [word.split(":")[0].strip().lstrip("_") for word in re.split(r",(?![^<]*>)", found.group(1)) if ":" in word]
            for first, second in zip(names, names[1:]):
                pairs[(first, second)] += 1
    for fact, times in facts.most_common():
        if times >= 3:
            yield f"{times} times: {fact}"
    for (first, second), times in pairs.most_common():
        if times >= 3:
            yield f"{times} times: parameters {first}, {second}"


def main():
    files = list(sources(sys.argv[1] if len(sys.argv) > 1 else None))
    found = {point: [m for p in patterns for m in matches(files, p)] for point, patterns in PATTERNS.items()}
    found["2 functions of one name"] = list(twins(files))
    found["5 facts and parameters that go together"] = list(repeated(files))
    for point in sorted(found):
        print(f"{point}: {len(found[point])}")
        for place in found[point]:
            print(f"    {place}")


main()

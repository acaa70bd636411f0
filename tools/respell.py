#!/usr/bin/env python3
"""Brings the names of the repository's own definitions and lemmas to one spelling: snake case, types and predicates in camel case.

usage: tools/respell.py [FOLDER]        FOLDER holds crates.txt and crates/; without one it is this repository

A name with a dash that a file of specs/ or proofs/ declares is written with underscores if it begins small (`weight-in`
becomes `weight_in`), and as one word if it begins with a capital (`Lowest-tied` becomes `LowestTied`), in its crate and in
those that depend on it; words that the library has renamed are renamed too (`getD-same` becomes `get_or_same`). Names of the
library, of goals and of sources keep their spelling: a name that the library declares as well is turned only in files that
declare it or take it from a crate of this repository. Where two names would fall together nothing is changed, unless APART
gives one of them another name. A second run changes nothing.
"""

import collections
import os
import re
import sys

LIBRARY = "/opt/rattle/rattle"
LETTER = r"[\w'◌≢≡≤<+∷⊎]"
DASHED = rf"[A-Za-z]{LETTER}*(?:-{LETTER}+)+"
OLDER = r"(?:\w+_)?(?:getD|sumBy)_\w+|\w+_(?:getD|sumBy)"
NAME = rf"(?<![\w'◌-])(?:{DASHED}|{OLDER})(?![\w'◌-])"
DECLARED = re.compile(rf"^[ ]*(?:(?:abbrev|unfoldable|pub) )*(?:({NAME})(?= :(?: |$))|(?:record|data) ({NAME})(?= ))", re.M)
TAKEN = re.compile(r"^(?:ghost )?use Rattle\.(\w+)\.[^{;\n]*\{([^}]*)\}", re.M)
ALIAS = re.compile(r"^(?:ghost )?use Rattle\.(\w+)\.[\w.]+ as (\w+)", re.M)
GOAL = re.compile(rf"\bgoal\.({DASHED})")
USED = re.compile(NAME)
APART = {"In-order": "AsksInOrder"}


def texts(top, ends=(".rt", ".antt", ".edit")):
    for folder, dirs, files in os.walk(top):
        dirs[:] = sorted(d for d in dirs if d not in ("out", ".git"))
        for name in sorted(files):
            if name.endswith(ends):
                path = os.path.join(folder, name)
                with open(path, encoding="utf-8") as f:
                    yield path, f.read()


def declared_in(text):
    return {small or capital for small, capital in DECLARED.findall(text)}


def declared(top):
    names, goals = set(), set()
    for _, text in texts(top, ".antt"):
        names |= declared_in(text)
        goals.update(GOAL.findall(text))
    return names - goals


def of_this_repository(text, crates):
    names = declared_in(text)
    for crate, taken in TAKEN.findall(text):
        if crate in crates:
            names.update(name.strip() for name in taken.split(","))
    for crate, alias in ALIAS.findall(text):
        if crate in crates:
            names.update(re.findall(rf"\b{alias}\.({DASHED})", text))
    return names


def spelled(name):
    if name in APART:
        return APART[name]
    parts = name.replace("getD", "get_or").replace("sumBy", "sum_by").split("-")
    if name[0].isupper():
        return "".join(part[:1].upper() + part[1:] for part in parts)
    return "_".join(parts)


def fallen_together(path, text, turned):
    used = {name for name in USED.findall(text) if name in turned}
    words = set(re.findall(rf"{LETTER}+", re.sub(r"\bfn \w+", " ", USED.sub(" ", text))))
    count = collections.Counter(turned[name] for name in used)
    return [f"{path}: {name}" for name in sorted(used) if count[turned[name]] > 1 or turned[name] in words]


def main():
    top = sys.argv[1] if len(sys.argv) > 1 else os.path.dirname(os.path.dirname(os.path.realpath(__file__)))
    with open(os.path.join(top, "crates.txt"), encoding="utf-8") as f:
        crates = dict(line.split("#")[0].split(":") for line in f if ":" in line.split("#")[0])
    library = declared(LIBRARY)
    own = {crate: declared(os.path.join(top, "crates", crate)) for crate in crates}
    changed, together = {}, []
    for crate, below in crates.items():
        names = set().union(*(own.get(c, set()) for c in [crate, *below.split()]))
        for path, text in texts(os.path.join(top, "crates", crate)):
            here = of_this_repository(text, crates)
            turned = {name: spelled(name) for name in names if name not in library or name in here}
            together += fallen_together(path, text, turned)
            new = USED.sub(lambda m: turned.get(m.group(), m.group()), text)
            if new != text:
                changed[path] = new
    if together:
        sys.exit("would fall together:\n" + "\n".join(together))
    for path, text in changed.items():
        with open(path, "w", encoding="utf-8") as f:
            f.write(text)
    print(f"{len(set().union(*own.values()))} names, {len(changed)} files changed")


main()

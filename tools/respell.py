#!/usr/bin/env python3
"""Brings the names of definitions and lemmas, in specs/ and proofs/, to snake case.

usage: python3 tools/respell.py      at the top of the repository, once, right after the toolchain's own script

A name that begins with a small letter and has a capital inside, as `recordOf`, becomes `record_of`; so do the fields of
records. Facts and types, which begin with a capital, and names that the check makes of the code's names keep their
spelling. Two names that would become one are reported, and nothing is written.
"""

import collections
import os
import re
import sys

WORD = r"[^\s(){}\[\].,;:λ\u27e8\u27e9⌜⌝\u2308\u2309]+"
# a name at the beginning of a line with its type: a definition, a lemma
DEFINED = re.compile(r"^(?:(?:unfoldable|abbrev|pub|ruleset) +)*(" + WORD + r")(?: +:|:)")
# a field of a record or a constructor
FIELD = re.compile(r"^\s+(?:field +)?(" + WORD + r") +: ")
# a generic word, bound by a λ or an argument, is no definition; it is respelled all the same where it has the form
CAMEL = re.compile(r"^[a-z][A-Za-z0-9]*(?:-[A-Za-z0-9]+)*$")
MADE = re.compile(r"^(returns|overflow|loop|invariant|decreases|slice|bounds|nonzero|offset|prove)-|-requires(-|$)|-(preserved|smaller|init)$")


def files(top, ends):
    for folder, dirs, names in os.walk(os.path.join(top, "crates")):
        dirs[:] = sorted(d for d in dirs if d not in ("out", "target"))
        for name in sorted(names):
            if name.endswith(ends):
                yield os.path.join(folder, name)


def snake(name):
    """recordOf -> record_of; a part behind a dash that is a name of the code keeps its capitals."""
    parts = name.split("-")
    return "-".join(re.sub(r"(?<=[a-z0-9])([A-Z])", lambda m: "_" + m.group(1).lower(), p) if p[:1].islower() else p for p in parts)


def read(path):
    with open(path, encoding="utf-8") as f:
        return f.read()


def names_of(top):
    found = collections.defaultdict(set)
    for path in files(top, (".antt",)):
        for line in read(path).split("\n"):
            for form in (DEFINED, FIELD):
                m = form.match(line)
                if m:
                    found[m.group(1)].add(path)
    return found


def main():
    top = os.getcwd()
    found = names_of(top)
    turned = {}
    for name in sorted(found):
        if CAMEL.match(name) and re.search("[A-Z]", name) and not MADE.search(name):
            new = snake(name)
            if new != name:
                turned[name] = new
    if not turned:
        print("every name is in snake case")
        return 0
    # a lemma that would get the name of its function is set apart
    set_apart = {s: s + "_lem" for s in turned.values() if s in found and s not in turned}
    clash = [n for n, s in turned.items() if list(turned.values()).count(s) > 1 or s + "_lem" in found]
    if clash:
        print("these fall together: " + ", ".join(f"{n} and {turned[n]}" for n in clash))
        return 1
    whole = re.compile(r"(?<![\w'′-])(" + "|".join(sorted(map(re.escape, turned), key=len, reverse=True)) + r")(?![\w'′-])")
    apart = re.compile(r"(?<![\w'′.-])(" + "|".join(map(re.escape, set_apart)) + r")(?![\w'′.-])") if set_apart else None
    changed = 0
    for path in files(top, (".antt", ".rt")):
        old = text = read(path)
        if path.endswith(".antt") and apart:
            # not a part of a path, which may name a function of the code
            text = apart.sub(lambda m: set_apart[m.group(1)], text)
        new = whole.sub(lambda m: turned[m.group(1)], text)
        if new != old:
            with open(path, "w", encoding="utf-8") as f:
                f.write(new)
            changed += 1
    for name, new in [*turned.items(), *set_apart.items()]:
        print(f"{name} -> {new}")
    print(f"{len(turned)} names, {changed} files")
    return 0


if __name__ == "__main__":
    sys.exit(main())

#!/usr/bin/env python3
"""Turns this repository's own names of definitions, lemmas and record fields to snake case, once, after the kit's port.py.

usage: tools/respell.py [--names]        at the top of the repository; --names only prints old and new names

A name is own if a file of specs/ or proofs/ declares it. Types and facts keep their capitals, names of goals and steps stay as the
prover makes them, and functions of src/ are not touched. A lemma that would get another's
name ends in _lem, and a field in _fact.
"""

import collections
import pathlib
import re
import sys

DECLARED = re.compile(r"^(\s*)(?:pub |abbrev |unfoldable |private |opaque )*([^\s(){}:]+)\s+:\s(.*)")
TOKEN = re.compile(r"[A-Za-z_][\w'-]*")
GOAL = re.compile(r"(tie|goal|need)\.")
TICKED = re.compile(r"`[^`\n]+`")


def snake(name):
    """The name in snake case; a leading capital stands for one of the worked examples, and stays."""
    if name[0].islower():
        name = re.sub(r"(?<=[a-z0-9])([A-Z])(?=[a-z0-9]|$)", lambda m: "_" + m.group(1).lower(), name)
    return name.replace("-", "_")


def declared(files):
    """The names that the files declare, each with whether it is a definition, a lemma or a field."""
    kinds = collections.defaultdict(set)
    for path in files:
        for line in path.read_text().splitlines():
            found = DECLARED.match(line)
            if not found or GOAL.match(found.group(3)):
                continue
            word = re.match(r"\s*(?:pub )?(abbrev|unfoldable)", line)
            kinds[found.group(2)].add("field" if found.group(1) else "definition" if word else "lemma")
    return kinds


def renamed(kinds):
    """Old names and new ones. Definitions come first; what would fall together with one gets an ending, since a field hides it."""
    taken, names = {}, {}
    first = {n for n in kinds if "definition" in kinds[n] or re.match(r"[a-z]+[A-Z]", n)}
    for name in sorted(kinds, key=lambda n: (n not in first, "field" not in kinds[n], n)):
        new = snake(name)
        if new in taken and name not in first:
            new += "_lem" if kinds[name] == {"lemma"} else "_fact"
        taken.setdefault(new, name)
        if new != name:
            names[name] = new
    return names


def respelled(text, names):
    return TOKEN.sub(lambda m: names.get(m.group(0), m.group(0)), text)


def ticked(text, names):
    return TICKED.sub(lambda m: respelled(m.group(0), names), text)


def line_respelled(line, names, comment):
    """A line of a source or proof file; in a comment only what stands in backticks, and names that no English word looks like."""
    code, mark, rest = line.partition(comment)
    camel = {old: new for old, new in names.items() if "-" not in old}
    return respelled(code, names) + mark + respelled(ticked(rest, names), camel)


def main():
    antt = sorted(pathlib.Path("crates").glob("*/specs/**/*.antt")) + sorted(pathlib.Path("crates").glob("*/proofs/**/*.antt"))
    names = renamed(declared(antt))
    if "--names" in sys.argv:
        print("\n".join(f"{old} {new}" for old, new in sorted(names.items())))
        return
    for path in antt + sorted(pathlib.Path("crates").glob("*/src/**/*.rt")):
        comment = "--" if path.suffix == ".antt" else "//"
        path.write_text("".join(line_respelled(line, names, comment) for line in path.read_text().splitlines(True)))
    for path in [pathlib.Path("README.md")] + sorted(pathlib.Path("docs").glob("**/*.md")):
        path.write_text(ticked(path.read_text(), names))


main()

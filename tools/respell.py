#!/usr/bin/env python3
"""Turns this repository's own definitions and lemmas to the spelling of today's Rattle.

usage: python3 tools/respell.py      at the top of a checkout, once, right after port.py

tools/respell.txt has a line for each name: what it was and what it is. Words are in snake case and
types in camel case; a dash stays only where it joins the names of two definitions in a lemma's name.
tools/respell_members.txt lists those that are fields or constructors, which also stand behind a dot.
Only .antt and .rt files are turned, and only whole names. Names that Rattle makes (goals, steps) and
names of functions have no line in the table and stay as they are.
"""

import os
import re

HERE = os.path.dirname(os.path.abspath(__file__))
TOP = os.path.dirname(HERE)


def lines(name):
    with open(os.path.join(HERE, name), encoding="utf-8") as f:
        return [line.split() for line in f if line.strip()]


NAMES = dict(lines("respell.txt"))
MEMBERS = {line[0] for line in lines("respell_members.txt")}
TOKEN = re.compile(r"""(?P<before>(?:\bgoal)?\.)?(?P<name>[^\s(){}\[\],.;:"`]+)""")


def turned(match):
    before, name = match.group("before") or "", match.group("name")
    if name not in NAMES or before == "goal." or (before == "." and name not in MEMBERS):
        return match.group(0)
    return before + NAMES[name]


def main():
    changed = 0
    for folder, dirs, files in os.walk(os.path.join(TOP, "crates")):
        dirs[:] = [d for d in dirs if d != "out"]
        for f in files:
            if not f.endswith((".antt", ".rt")):
                continue
            path = os.path.join(folder, f)
            with open(path, encoding="utf-8") as source:
                old = source.read()
            new = TOKEN.sub(turned, old)
            if new != old:
                changed += 1
                with open(path, "w", encoding="utf-8") as target:
                    target.write(new)
    print(f"respell: {changed} files changed")


if __name__ == "__main__":
    main()

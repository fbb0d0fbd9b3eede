#!/usr/bin/env python3
"""Writes the index of wrong bodies at the end of CONTRIBUTING.md anew: by crate and function, what the contracts exclude.

    tools/wrong_bodies.py          writes the index
    tools/wrong_bodies.py --check  writes nothing, and ends with status 1 where the index is not as it would be

The words of an entry are the name of its edit in crates/CRATE/must-fail, and the function is the one that the edit changes.
"""
import glob
import os
import re
import sys

from repository import TOP, crates, read

PAGE = "CONTRIBUTING.md"
TITLE = "## What the contracts exclude"


def changed(crate, edit):
    """The function that an edit changes first, with its type, or else the file: the last one that begins before the change."""
    text = read(edit)
    source = re.search(r"^file: (.*)$", text, re.M)[1]
    old = re.search(r"^old: ?(.*)$", text, re.M)[1]
    whole = read(os.path.join("crates", crate, source))
    at = whole.find(old)
    if at < 0:
        print("not in the source: %s" % edit)
    so_far = whole[:at + len(old)]
    functions = re.findall(r"^( *)(?:[\w()]+ )*fn (\w+)", so_far, re.M)
    types = re.findall(r"^impl\b(?:<[^{]*?>)? (?:[\w<>' ]+ for )?(\w+)", so_far, re.M)
    if not functions:
        return source
    indent, name = functions[-1]
    return "%s::%s" % (types[-1], name) if indent and types else name


def index():
    parts = []
    for crate in crates():
        by_function = {}
        for edit in sorted(glob.glob(os.path.join(TOP, "crates", crate, "must-fail", "*.edit"))):
            words = os.path.basename(edit)[:-5].replace("_", " ")
            by_function.setdefault(changed(crate, edit), []).append(words)
        if by_function:
            parts.append("\n### `%s`\n" % crate)
            parts += ["- `%s`: %s" % (name, "; ".join(words)) for name, words in sorted(by_function.items())]
    return "\n".join(parts) + "\n"


def main():
    now = read(PAGE)
    head, found, tail = now.partition(TITLE + "\n")
    intro = tail.split("\n### ")[0].rstrip("\n")
    new = head + found + intro + "\n" + index()
    if "--check" in sys.argv:
        sys.exit(0 if new == now else "CONTRIBUTING.md is not as tools/wrong_bodies.py writes it")
    with open(os.path.join(TOP, PAGE), "w", encoding="utf-8") as file:
        file.write(new)


main()

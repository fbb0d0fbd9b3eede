#!/usr/bin/env python3
"""Writes docs/DEFINITIONS.md anew: a row for each file of definitions, by crate.

    tools/definitions.py          writes the page, and says what a reader has to look at
    tools/definitions.py --check  writes nothing, and ends with status 1 where the page is not as it would be

What a file is comes from its head comment, to the letter. The title of a crate and what ties a file to the subject are kept
from the page, where they are written by hand. Told are files without a tie, and names in ties that no source has.
"""
import os
import re
import sys

from repository import TOP, crates, read

PAGE = "docs/DEFINITIONS.md"
OPEN = "TO BE WRITTEN"


def head(path):
    """The comment that a file begins with, on one line."""
    words = []
    for line in read(path).split("\n"):
        if not line.startswith("--"):
            break
        words.append(line[2:].strip())
    return " ".join(words)


def only_lists(path):
    """Whether a file does nothing but list others."""
    return all(re.match(r"(--|pub mod |$)", line) for line in read(path).split("\n"))


def files(crate):
    """The files of definitions of a crate, and what each is."""
    top = os.path.join(TOP, "crates", crate, "specs")
    found = []
    for folder, _, names in os.walk(top):
        for name in names:
            path = os.path.join(folder, name)
            if name.endswith(".antt") and not only_lists(path):
                found.append((os.path.relpath(path, top), head(path) or OPEN))
    return sorted(found)


def page_now():
    """What stands before the first crate, the titles, and the ties of the page."""
    text = read(PAGE)
    titles, ties, crate = {}, {}, None
    for line in text.split("\n"):
        title = re.match(r"## `(\w+)`: (.*)", line)
        row = re.match(r"\| `([^`]+\.antt)` \| .* \| (.*) \|$", line)
        if title:
            crate = title[1]
            titles[crate] = title[2]
        elif row:
            ties[crate, row[1]] = row[2]
    return text.split("\n## ")[0].rstrip("\n"), titles, ties


def page_new(intro, titles, ties):
    parts = [intro]
    for crate in crates():
        rows = files(crate)
        if rows:
            parts.append("\n## `%s`: %s\n\n| File | What it is | Tied by |\n|---|---|---|" % (crate, titles.get(crate, OPEN)))
            parts += ["| `%s` | %s | %s |" % (name, what.replace("|", "\\|"), ties.get((crate, name), OPEN)) for name, what in rows]
    return "\n".join(parts) + "\n"


def names_of_sources():
    """The names of all functions, types and files that a tie may cite."""
    names = set()
    for folder, _, found in os.walk(os.path.join(TOP, "crates")):
        if "/out" in folder or "/must-fail" in folder:
            continue
        for name in found:
            if name.endswith(".rt"):
                text = read(os.path.join(folder, name))
                names.update(re.findall(r"\b(?:fn|struct|enum|trait|mod|type) (\w+)", text))
            if name.endswith(".antt"):
                names.update([name, name[:-5]])
                names.update(re.findall(r"\bpub (?:\w+ )*?(\w+) :", read(os.path.join(folder, name))))
                names.update(re.findall(r"\brecord (\w+)", read(os.path.join(folder, name))))
    return names.union(crates())


def main():
    intro, titles, ties = page_now()
    new = page_new(intro, titles, ties)
    known = names_of_sources()
    for crate in crates():
        for name, what in files(crate):
            if what == OPEN:
                print("no head comment: %s %s" % (crate, name))
            tie = ties.get((crate, name), OPEN)
            if tie == OPEN:
                print("no tie: %s %s" % (crate, name))
            for cited in re.findall(r"`([^`]+)`", tie):
                for part in cited.split("::"):
                    if part not in known:
                        print("no such name: %s %s: %s" % (crate, name, cited))
    if "--check" in sys.argv:
        sys.exit(0 if new == read(PAGE) else "docs/DEFINITIONS.md is not as tools/definitions.py writes it")
    with open(os.path.join(TOP, PAGE), "w", encoding="utf-8") as file:
        file.write(new)


main()

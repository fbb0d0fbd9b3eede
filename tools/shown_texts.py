#!/usr/bin/env python3
"""Says which indented lines of the pages stand neither in a file of input nor among the answers of the gallery.

    tools/shown_texts.py

A page may show what `crates/halo_gallery/stdout` has, which the gate compares with what the program writes; files of input in
`examples` or in the gallery's `data`; and commands. It also compares the files in `examples` with those of the gallery, and each
stored answer with the gallery's. Ends with status 1 where something else is shown.
"""
import glob
import os
import re
import sys

from repository import TOP, read

GALLERY = "crates/halo_gallery"

# A folder of examples, with the gallery's names of its tables file and its contract file.
SOURCES = {
    "all-forms": ("all_forms/tables.csv", "all_forms/contract.txt"),
    "columns": ("tables/from_birth.csv", None),
    "contingent": ("examples/contingent.csv", "examples/contingent.txt"),
    "disability": ("examples/disability.csv", "examples/disability.txt"),
    "endowment": ("tables/usual.csv", "examples/endowment.txt"),
    "family-pension": ("tables/usual.csv", "examples/family_pension.txt"),
    "forms": ("tables/m.csv", "examples/forms.txt"),
    "fund": ("examples/fund.csv", "examples/fund.txt"),
    "joint-life": ("tables/usual.csv", "examples/joint_life.txt"),
    "one-life": ("tables/m.csv", "one_life/annuity_due.txt"),
}
# Stored answers, with the words of their command; T and C stand for the files.
ANSWERS = {
    "report.txt": "value T C",
    "explanation.txt": "explain T C",
    "canonical.txt": "check T C",
    "forms.txt": "compile T C",
}
COLUMNS = {"columns": "columns T c 1/1", "fund": "columns T s 1/25"}


def answers():
    """The answer of each row of the gallery, by its words."""
    rows = re.findall(r"^> halo (.*)\n((?:(?!status \d+$).*\n)*?)status \d+$", read(GALLERY + "/stdout"), re.M)
    return {words: text for words, text in rows}


def allowed():
    """The lines that a page may show."""
    files = glob.glob(os.path.join(TOP, GALLERY, "data", "**", "*.*"), recursive=True)
    files += glob.glob(os.path.join(TOP, "examples", "*", "*.csv")) + glob.glob(os.path.join(TOP, "examples", "*", "contract.txt"))
    lines = set(read(GALLERY + "/stdout").split("\n"))
    for path in files:
        lines.update(read(path).split("\n"))
    return {line.strip() for line in lines}


def shown():
    """The indented lines of the pages."""
    pages = ["README.md", "CONTRIBUTING.md"] + sorted(glob.glob("docs/*.md", root_dir=TOP) + glob.glob("examples/*/README.md", root_dir=TOP))
    for page in pages:
        before = ""
        for at, line in enumerate(read(page).split("\n"), 1):
            if line.startswith("    ") and (not before.strip() or before.startswith("    ")):
                yield page, at, line.strip()
            before = line


def stored():
    """What differs between the examples and the gallery."""
    told = answers()
    for folder in sorted(os.listdir(os.path.join(TOP, "examples"))):
        if os.path.isdir(os.path.join(TOP, "examples", folder)) and folder not in SOURCES:
            yield "examples/%s stands not among the sources in tools/shown_texts.py" % folder
    for folder, names in sorted(SOURCES.items()):
        for mine, other in zip(("tables.csv", "contract.txt"), names):
            path = "examples/%s/%s" % (folder, mine)
            if other and not os.path.exists(os.path.join(TOP, GALLERY, "data", other)):
                yield "%s: the gallery has no %s" % (path, other)
            elif other and read(path) != read(GALLERY + "/data/" + other):
                yield "%s is not the gallery's %s" % (path, other)
        commands = dict(ANSWERS, **({"columns.txt": COLUMNS[folder]} if folder in COLUMNS else {}))
        for mine, words in commands.items():
            path = "examples/%s/%s" % (folder, mine)
            if os.path.exists(os.path.join(TOP, path)):
                words = " ".join({"T": names[0], "C": names[1]}.get(word, word) for word in words.split())
                if told.get(words) != read(path):
                    yield "%s is not what the gallery has for %s" % (path, words)


def main():
    lines = allowed()
    wrong = ["%s:%d: %s" % place for place in shown() if not re.match(r"(\./halo|rt|cd|git|examples/|tools/) ?", place[2]) and place[2] not in lines]
    wrong += stored()
    for line in wrong:
        print(line)
    sys.exit(1 if wrong else 0)


main()

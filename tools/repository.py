"""What the scripts of this folder share: where the repository is, its files and its crates."""
import os

TOP = os.path.dirname(os.path.dirname(os.path.abspath(__file__)))


def read(path):
    """The text of a file of the repository."""
    with open(os.path.join(TOP, path), encoding="utf-8", errors="replace") as file:
        return file.read()


def crates():
    """The crates, lowest first."""
    lines = (line.split("#")[0].strip() for line in read("crates.txt").split("\n"))
    return [line.split(":")[0] for line in lines if line]

#!/usr/bin/env python3
"""Makes files at the limits, runs each command on them, and tells time, memory and what came of it.

    tools/limits.py [PROGRAM [WORD..]]

PROGRAM is crates/halo/out/halo unless given; `./halo` builds it. With words, as `explain`, only those runs are made whose names have
them all. No gate runs it.

The time is the least of three runs, from the start of the process to its end, and of one where that
takes more than 3 s. The memory is the peak of the resident memory; it is not told below that of the
process that starts the run, about 10 MiB. A run with at most 400 MB of memory (`in 400 MB`) says
whether a text that does not fit is answered by 9. A run ends after two minutes (status -9).
"""

import os
import random
import resource
import signal
import subprocess
import sys
import tempfile
import time

from repository import TOP

LETTERS = "abcdefghijklmnopqrstuvwxyz"
FIRSTS = LETTERS + LETTERS.upper()
MOST_TABLES = 16_777_216
MOST_CONTRACT = 65_536
NAMES = [f"life{number:02}_of_many" for number in range(1, 13)]
ROOM = 400_000_000
LONGEST = 120.0
RUNS = 3
LONG = 3.0


def table(name, last, causes=1):
    """The rows of a table of ages 0 to last, of which as many leave at each age."""
    rows = []
    for age in range(last + 1):
        left = (last + 1 - age) * 10 * causes
        rows.append(f"{name},{age},{left}" + ",10" * causes)
    return rows


def header(causes=1):
    return "table,age,l," + ",".join(FIRSTS[:causes])


def causes_of(order):
    """The most different names that a record 1 can hold, the shortest, in an order."""
    rests = LETTERS + LETTERS.upper() + "0123456789_"
    names = [a for a in FIRSTS] + [a + b for a in FIRSTS for b in rests]
    names += [a + b + c for a in FIRSTS for b in rests for c in rests]
    room = MOST_TABLES - len("table,age,l\n") - sum(map(len, names)) - len(names)
    longer = (a + b + c + d for a in FIRSTS for b in rests for c in rests for d in rests)
    names += [name for name, _ in zip(longer, range(room // 5))]
    names.sort() if order == "in order" else random.Random(1).shuffle(names)
    return "table,age,l," + ",".join(names) + "\n"


def long_numbers():
    digits = "0" * 111_840
    rows = [row.split(",") for row in table("t", 49)]
    return "\n".join([header(), *(",".join([r[0], *(digits + n for n in r[1:])]) for r in rows)]) + "\n"


def many_rows():
    full = "\n".join([header(8), *(row for n in range(64) for row in table(f"t{n}", 150, 8))]) + "\n"
    return full + "t,0,1,1\n" * ((MOST_TABLES - len(full)) // 8)


def body(rank, terms):
    """A body of 64 nodes on the twelve lives, each named several times, with these terms or none."""
    members = [f"{2 + (rank + group) % 11}/({':'.join(within(group + rank, terms))})" for group in range(4)]
    return f"{1 + rank % 4}/({':'.join(members + [':'.join(NAMES[:3])])})"


def within(group, terms):
    """Fourteen members: the twelve lives, and two of them again or two terms."""
    more = [f"<{terms[(2 * group + i) % len(terms)]}>" for i in range(2)] if terms else NAMES[group % 11 : group % 11 + 2]
    return NAMES + more


def contract(pays, ties="declared"):
    """A contract on twelve lives with these pays and as many reserves as may be, filled up to the limit."""
    lives = [f"life {name} t {number}" for number, name in enumerate(NAMES)]
    lines = ["interest 1/33", *lives, f"ties {ties}", *pays, f"premium {NAMES[0]}:{NAMES[1]}"]
    lines += [f"reserve {time} {NAMES[time % 12]}" for time in range(1, 65)]
    text = "\n".join(lines) + "\n"
    return text + "#" * (MOST_CONTRACT - len(text))


TERMS = list(range(12, 204, 12))
FILES = {
    "one table of 151 rows": lambda: "\n".join([header(), *table("t", 150)]) + "\n",
    "numbers of 111,840 zeros": long_numbers,
    "empty lines": lambda: header() + "\n" * (MOST_TABLES - 100) + "\n".join(table("t", 0)) + "\n",
    "64 tables and many rows": many_rows,
    "empty fields in record 1": lambda: "," * MOST_TABLES,
    "empty fields in record 2": lambda: header() + "\n" + "," * (MOST_TABLES - 30),
    "causes in order": lambda: causes_of("in order"),
    "causes in random order": lambda: causes_of("random"),
    "one byte too many": lambda: "\n" * (MOST_TABLES + 1),
    "a comment": lambda: "#" * MOST_CONTRACT,
    "empty contract lines": lambda: "\n" * MOST_CONTRACT,
    "an amount of 65,000 digits": lambda: "interest 1/33\nlife a t 20\npay " + "9" * 65_000 + " ad[a]\n",
    "a body of 65,000 bytes": lambda: "interest 1/33\nlife a t 20\npay 1 ad[" + "a:" * 32_500 + "a]\n",
    "spaces": lambda: "interest 1/33\nlife a t 20\npay 1" + " " * 65_000 + "ad[a]\n",
    "annuities": lambda: contract([f"pay 1 ad[{body(n, [])}]" for n in range(64)]),
    "insurances": lambda: contract([f"pay 1 A[{body(n, [])}]" for n in range(64)]),
    "insurances by cause": lambda: contract([f"pay 1 A{{a}}[{body(n, [])}]" for n in range(64)]),
    "insurances by cause, even": lambda: contract([f"pay 1 A{{a}}[{body(n, [])}]" for n in range(64)], "even"),
    "annuities with 16 terms": lambda: contract([f"pay 1 ad[{body(n, TERMS)}]" for n in range(64)]),
    "insurances with 16 terms": lambda: contract([f"pay 1 A[{body(n, TERMS)}]" for n in range(64)]),
}
T = "one table of 151 rows"
RUNS_OF_TABLES = [
    "numbers of 111,840 zeros",
    "empty lines",
    "64 tables and many rows",
    "empty fields in record 1",
    "empty fields in record 2",
    "causes in order",
    "causes in random order",
    "one byte too many",
]
SHORT_CONTRACTS = [
    "a comment",
    "empty contract lines",
    "an amount of 65,000 digits",
    "a body of 65,000 bytes",
    "spaces",
]
LONG_CONTRACTS = [
    "annuities",
    "insurances",
    "insurances by cause",
    "insurances by cause, even",
    "annuities with 16 terms",
    "insurances with 16 terms",
]


def in_room():
    resource.setrlimit(resource.RLIMIT_AS, (ROOM, ROOM))


def once(program, words, bounded):
    """The status of a run, its time in seconds, its peak in MiB, and how many bytes it wrote."""
    with open("out", "wb") as out:
        begin = time.monotonic()
        child = subprocess.Popen([program, *words], stdout=out, preexec_fn=in_room if bounded else None)
        while True:
            pid, status, used = os.wait4(child.pid, os.WNOHANG)
            took = time.monotonic() - begin
            if pid:
                break
            if took > LONGEST:
                os.kill(child.pid, signal.SIGKILL)
            time.sleep(0.0005 if took < 1 else 0.01)
    child.returncode = os.waitstatus_to_exitcode(status)
    return child.returncode, took, used.ru_maxrss / 1024, os.path.getsize("out")


def show(program, name, words, bounded=False):
    status, took, peak, wrote = once(program, words, bounded)
    for _ in range(RUNS - 1):
        if took <= LONG and not bounded:
            status, again, more, wrote = once(program, words, bounded)
            took, peak = min(took, again), max(peak, more)
    with open("out", "rb") as out:
        first = out.readline(40).decode().strip() if status else ""
    print(f"| `{words[0]}`, {name} | {status} | {wrote:,} | {took:.3f} s | {peak:.0f} MiB | {first} |", flush=True)


def all_runs():
    """The commands, each with a name of what it runs on, its words, and whether in bounded memory."""
    for name in RUNS_OF_TABLES:
        yield name, ["value", name, "a comment"], False
    yield RUNS_OF_TABLES[0], ["columns", RUNS_OF_TABLES[0], "t", "1/33"], False
    for name in SHORT_CONTRACTS:
        yield name, ["check", T, name], False
    for name in LONG_CONTRACTS:
        for command in ("check", "value", "compile", "explain"):
            yield name, [command, T, name], False
        for command in ("compile", "explain"):
            yield f"{name}, in 400 MB", [command, T, name], True
    yield "one table", ["columns", T, "t", "1/33"], False
    yield "the greatest number", ["sample", "1000000000000"], False


def main():
    program = os.path.abspath(sys.argv[1] if len(sys.argv) > 1 else f"{TOP}/crates/halo/out/halo")
    if not os.access(program, os.X_OK):
        sys.exit(f"there is no program {program}: run ./halo once, which builds it")
    wanted = [run for run in all_runs() if all(word in f"{run[1][0]} {run[0]}" for word in sys.argv[2:])]
    with tempfile.TemporaryDirectory(prefix="halo-limits-") as folder:
        os.chdir(folder)
        # In a process of its own, since a run's memory is told no lower than that of its starter.
        if os.fork() == 0:
            for name, make in FILES.items():
                with open(name, "w") as file:
                    file.write(make())
            os._exit(0)
        os.wait()
        print("| Command and files | Status | Bytes written | Time | Memory | First line |\n|---|---|---|---|---|---|")
        for name, words, bounded in wanted:
            show(program, name, words, bounded)
        os.chdir(TOP)


main()

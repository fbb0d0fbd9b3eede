#!/usr/bin/env python3
"""Runs the program where the system refuses it something, at each call in turn, and ends with a count.

    tools/refuse.py [PROGRAM]

PROGRAM is crates/halo/out/halo unless given; `./halo` builds it. It needs Linux with glibc, and a C
compiler as `cc` (or $CC). No gate runs it. It takes some minutes, most of them for `sample 1`.

- Each allocation is refused, one a run. The run writes nothing and ends with 9, or answers as ever.
- Each opening, each seeking and each read of a file fails, one a run, where a read gives one byte.
  The run ends with 3, and its line names the file.
- Each write fails, one a run, where a write takes one byte. The run ends with 1, and has written
  the bytes before the one that failed.

The last line counts the runs of each kind, those that answered as ever, and those that did otherwise,
which are told before it. The status is 0 where there are none of these.
"""

import os
import subprocess
import sys
import tempfile

from repository import TOP

# What stands between the program and the C library. A call that is refused writes a byte to TOLD.
BETWEEN = r"""
#include <errno.h>
#include <fcntl.h>
#include <stdarg.h>
#include <stdlib.h>
#include <sys/syscall.h>
#include <unistd.h>

extern void *__libc_malloc(size_t size);
extern void *__libc_realloc(void *old, size_t size);

enum { ALLOC, OPEN, SEEK, READ, WRITE, KINDS };
static const char *const names[KINDS] = {"ALLOC", "OPEN", "SEEK", "READ", "WRITE"};
static long refused[KINDS], calls[KINDS];
static size_t piece = -1;
static int told = -1;

__attribute__((constructor)) static void begin(void) {
    for (int kind = 0; kind < KINDS; kind++) {
        const char *number = getenv(names[kind]);
        refused[kind] = number ? atol(number) : 0;
        calls[kind] = 0;
    }
    if (getenv("PIECE")) piece = atol(getenv("PIECE"));
    if (getenv("TOLD")) told = atoi(getenv("TOLD"));
}

static int is_refused(int kind, int why) {
    if (++calls[kind] != refused[kind]) return 0;
    syscall(SYS_write, told, "x", 1);
    errno = why;
    return 1;
}

void *malloc(size_t size) {
    return is_refused(ALLOC, ENOMEM) ? NULL : __libc_malloc(size);
}

void *realloc(void *old, size_t size) {
    return is_refused(ALLOC, ENOMEM) ? NULL : __libc_realloc(old, size);
}

int open(const char *path, int flags, ...) {
    va_list more;
    va_start(more, flags);
    int mode = va_arg(more, int);
    va_end(more);
    return is_refused(OPEN, EACCES) ? -1 : syscall(SYS_openat, AT_FDCWD, path, flags, mode);
}

off_t lseek(int file, off_t at, int from) {
    return is_refused(SEEK, EIO) ? -1 : syscall(SYS_lseek, file, at, from);
}

ssize_t read(int file, void *into, size_t room) {
    return is_refused(READ, EIO) ? -1 : syscall(SYS_read, file, into, room < piece ? room : piece);
}

ssize_t write(int file, const void *bytes, size_t count) {
    return is_refused(WRITE, EIO) ? -1 : syscall(SYS_write, file, bytes, count < piece ? count : piece);
}

ssize_t __write(int file, const void *bytes, size_t count) {
    return write(file, bytes, count);
}
"""

M = "table,age,l,death\nm,60,4,2\nm,61,2,1\nm,62,1,1\n"
Z = "table,age,l,death\nc,0,4,2\nc,1,2,1\nc,2,1,1\n"
LIVES = "interest 1/1\nlife x m 60\nlife y m 60\nlife z m 60\n"
RESERVED = "pay 1 A[bar(x:y)]\npremium bar(x:y)\nreserve 1 x\n"

# The words of a run, and the files that they name.
ROWS = [
    ("value T C", {"T": M, "C": LIVES + "pay 1 ad[x]\n"}),
    ("value T C", {"T": M, "C": LIVES + RESERVED}),
    ("value T C", {"T": M, "C": LIVES + "ties even\npay 1 A[x^2:y:z]\n"}),
    ("check T C", {"T": M, "C": LIVES + RESERVED}),
    ("compile T C", {"T": M, "C": LIVES + RESERVED}),
    ("explain T C", {"T": M, "C": LIVES + "pay 1 ad[bar(x:y)]\n"}),
    ("explain T C", {"T": M, "C": LIVES + "pay 1 A[x:<2>]\n"}),
    ("columns T c 1/1", {"T": Z}),
    ("columns T d 1/1", {"T": Z}),
    ("sample 1", {}),
    ("sample x", {}),
    ("value T", {}),
    ("value T C", {"T": "", "C": ""}),
    ("value T C", {"T": M, "C": LIVES + "pay 1 ad[x\n"}),
]


def run(program, words, between, refused):
    """The status and the output of a run, and whether the call that is refused came."""
    reading, writing = os.pipe()
    env = {"LD_PRELOAD": between, "TOLD": str(writing)}
    env.update((kind, str(number)) for kind, number in refused.items())
    ended = subprocess.run(
        [program, *words.split()], env=env, pass_fds=[writing], stdin=subprocess.DEVNULL, stdout=subprocess.PIPE
    )
    os.close(writing)
    came = os.read(reading, 1) != b""
    os.close(reading)
    return (ended.returncode, ended.stdout), came


def is_kept(kind, number, answer, usual, files):
    """Whether the answer is one of those that a run with this refusal may give."""
    if kind == "ALLOC":
        return answer in (usual, (9, b""))
    if kind == "WRITE":
        return answer == (1, usual[1][: number - 1])
    # A read of the tables file for each of its bytes, and one that finds its end.
    is_of_tables = number <= len(files["T"].encode()) + 1
    return answer == (3, b"read fault tables\n" if is_of_tables else b"read fault contract\n")


def refuse_each(program, between, kind, counts):
    """Runs each row with the first call of this kind refused, then the second, as long as one is."""
    for words, files in ROWS:
        for name, text in files.items():
            with open(name, "w") as file:
                file.write(text)
        piece = {} if kind == "ALLOC" else {"PIECE": 1}
        usual, _ = run(program, words, between, piece)
        number = 1
        while True:
            answer, came = run(program, words, between, {kind: number, **piece})
            if not came:
                break
            counts["runs"] += 1
            counts["as ever"] += answer == usual
            if not is_kept(kind, number, answer, usual, files):
                counts["wrong"] += 1
                print(f"{words}: {kind} {number}: status {answer[0]}, {answer[1][:80]!r}", flush=True)
            number += 1
        if answer != usual:
            counts["wrong"] += 1
            print(f"{words}: with no {kind} refused: status {answer[0]}, {answer[1][:80]!r}")


def main():
    program = os.path.abspath(sys.argv[1] if len(sys.argv) > 1 else f"{TOP}/crates/halo/out/halo")
    if not os.access(program, os.X_OK):
        sys.exit(f"there is no program {program}: run ./halo once, which builds it")
    kinds = ("ALLOC", "OPEN", "SEEK", "READ", "WRITE")
    counts = {kind: {"runs": 0, "as ever": 0, "wrong": 0} for kind in kinds}
    with tempfile.TemporaryDirectory(prefix="halo-refuse-") as folder:
        os.chdir(folder)
        with open("between.c", "w") as file:
            file.write(BETWEEN)
        between = f"{folder}/between.so"
        subprocess.run([os.environ.get("CC", "cc"), "-shared", "-fPIC", "-O1", "-o", between, "between.c"], check=True)
        for kind in kinds:
            refuse_each(program, between, kind, counts[kind])
        os.chdir(TOP)
    runs, kept, wrong = (sum(counts[kind][it] for kind in kinds) for it in ("runs", "as ever", "wrong"))
    of_kinds = ", ".join(f"{counts[kind]['runs']} {kind.lower()}" for kind in kinds)
    print(f"{runs} runs ({of_kinds}): {kept} answered as ever, {wrong} wrong")
    sys.exit(1 if wrong else 0)


main()

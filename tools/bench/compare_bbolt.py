#!/usr/bin/env python3
"""Times commands of `luntsegi` and of bbolt's library on the same sound files, for `make bench`.

    compare_bbolt.py PROGRAM BBOLT FILE [BUCKET KEY]

BBOLT is the program of tools/bbolt. Each command is run by both in turn; the figures are medians of
five. If BUCKET, a bucket of FILE, and KEY, a key of it, are there, `keys` and `get` are timed too. A copy by
bbolt is made with each size of a transaction that one would choose, its own default and a large one, and not
synced; the faster one counts. Memory is the most that was resident; bbolt maps the file, and what it touched of
it counts too. Prints a row for each command, and one of `check` in turn without large pages and with them, for which
the launcher of the installed program asks the kernel. The status is 1 if a command fails.
"""

import os
import subprocess
import sys
import tempfile
from statistics import median

# What runs each command: out/measured, which is smaller than any of them.
MEASURED = "out/measured"
ROUNDS = 5
TRANSACTIONS = (65536, 16 << 20)
SMALL_PAGES = ["env", "GLIBC_TUNABLES=glibc.malloc.hugetlb=0"]
LARGE_PAGES = ["env", "GLIBC_TUNABLES=glibc.malloc.hugetlb=1"]


def run(words):
    """How long the command took, which must succeed, and the most MB that it needed."""
    with tempfile.NamedTemporaryFile() as result:
        quiet = {"stdout": subprocess.DEVNULL, "stderr": subprocess.DEVNULL}
        status = subprocess.run([MEASURED, result.name, *words], check=False, **quiet).returncode
        if status != 0:
            sys.exit(f"{' '.join(words)}: status {status}")
        seconds, kib = result.read().split()
    return float(seconds), int(kib) * 1024 / 1e6


def fresh(path):
    """A path where there is no file."""
    if os.path.exists(path):
        os.remove(path)
    return path


def medians(*calls):
    """The medians of what each call returns, which are made in turn."""
    rounds = [[call() for call in calls] for _ in range(ROUNDS)]
    return [tuple(median(values) for values in zip(*results)) for results in zip(*rounds)]


def shown(name, results):
    """A row: seconds and MB of each."""
    print(f"{name}: " + ", ".join(f"{seconds:.3f} s {memory:.0f} MB" for seconds, memory in results), flush=True)


def compare(program, bbolt, file, name, *operands):
    """Prints the row of a command that both have: of the program, and of bbolt."""
    ours, theirs = [program, name, file, *operands], [bbolt, name, file, *operands]
    shown(name, medians(lambda: run(ours), lambda: run(theirs)))


def compare_copies(program, bbolt, file):
    """Prints the row of the copies: of the program for bbolt, and of bbolt by each size of a transaction."""
    copy = file + ".copy"
    ours = [program, "compact", "--for-bbolt", "-o", copy, file]
    theirs = [[bbolt, "compact", file, copy, str(size)] for size in TRANSACTIONS]
    calls = [lambda words=words: (fresh(copy), run(words))[1] for words in (ours, *theirs)]
    shown("compact --for-bbolt", medians(*calls))
    fresh(copy)


def compare_large_pages(program, file):
    """Prints the row of `check` without large pages and with them."""
    words = [program, "check", file]
    calls = [lambda pages=pages: run([*pages, *words]) for pages in (SMALL_PAGES, LARGE_PAGES)]
    shown("check without large pages, with them", medians(*calls))


def main():
    program, bbolt, file, *path = sys.argv[1:]
    print(f"{file}: luntsegi, bbolt")
    for name in ("check", "info", "buckets", "stats", "pages", "list"):
        compare(program, bbolt, file, name)
    if path:
        compare(program, bbolt, file, "keys", path[0])
        compare(program, bbolt, file, "get", *path)
    compare_copies(program, bbolt, file)
    compare_large_pages(program, file)


if __name__ == "__main__":
    main()

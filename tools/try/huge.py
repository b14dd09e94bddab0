#!/usr/bin/env python3
"""Tries files of more than 4 GB, for `make huge`: one that is accepted, and one that is refused.

    huge.py PROGRAM FOLDER

Both are sparse: they have two metas and, past 4 GB, the leaf of the root. The program reads a file whole, so without
7 GB of free memory nothing is tried, and a line says so. The status is 1 if a command prints anything else."""

import os
import subprocess
import sys

from draft import FRESH, Draft, meta_page
from file_format import NONE_WRITTEN

ROOT = 2**20 + 1
PAGE_SIZE = FRESH["page_size"]
LINES = "61 = 6f6e65\n62 = 74776f\n"
KB_NEEDED = 7 * 2**20
SECONDS = 120


def make(path, *elements):
    """Writes a file without a freelist whose root is a leaf of these elements."""
    with open(path, "wb") as out:
        for number in (0, 1):
            out.seek(number * PAGE_SIZE)
            fields = dict(FRESH, root=ROOT, freelist=NONE_WRITTEN, mark=ROOT + 1, txid=number)
            out.write(meta_page(number, fields))
        out.seek(ROOT * PAGE_SIZE)
        out.write(Draft().leaf(str(ROOT), elements))
        out.truncate((ROOT + 1) * PAGE_SIZE)


def free_kb():
    with open("/proc/meminfo", encoding="ascii") as it:
        return next(int(line.split()[1]) for line in it if line.startswith("MemAvailable:"))


def is_printed(program, words, status, out, err=""):
    ran = subprocess.run([program, *words], capture_output=True, text=True, timeout=SECONDS)
    is_right = (ran.returncode, ran.stdout, ran.stderr) == (status, out, err)
    if not is_right:
        print(f"{words} printed: status {ran.returncode}, {ran.stdout[-300:]!r}, {ran.stderr[-300:]!r}")
    return is_right


def tried(program, folder):
    """Whether each command prints what it should, of both files."""
    huge, copy = f"{folder}/huge.db", f"{folder}/huge_copy.db"
    fault = f"page {ROOT}: keys not rising"
    make(huge, "a=one", "b=two")
    yield is_printed(program, ["check", huge], 0, "OK\n")
    yield is_printed(program, ["get", huge, "b"], 0, "two\n")
    yield is_printed(program, ["page", huge, str(ROOT)], 0, f"page {ROOT}\ntype leaf\nitems 2\noverflow 0\n{LINES}")
    yield is_printed(program, ["compact", "-o", copy, huge], 0, f"{(ROOT + 1) * PAGE_SIZE} -> {4 * PAGE_SIZE} bytes\n")
    yield is_printed(program, ["list", copy], 0, LINES)
    make(huge, "b=two", "a=one")
    yield is_printed(program, ["check", huge], 1, f"{fault}\n1 errors found\n")
    yield is_printed(program, ["list", huge], 1, "", f"error: file refused: {fault}\n")


def main():
    program, folder = sys.argv[1:]
    if free_kb() < KB_NEEDED:
        print(f"huge.py: left out, since only {free_kb() // 2**20} GB of memory are free")
        return 0
    made = [f"{folder}/{name}" for name in ("huge.db", "huge_copy.db")]
    for name in made:
        if os.path.exists(name):
            os.remove(name)
    try:
        results = [*tried(program, folder)]
    finally:
        for name in made:
            if os.path.exists(name):
                os.remove(name)
    print(f"files of more than 4 GB: {len(results)} commands, {len(results) - sum(results)} differ")
    return 0 if all(results) else 1


if __name__ == "__main__":
    sys.exit(main())

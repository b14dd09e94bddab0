#!/usr/bin/env python3
"""Counts what etcd's commands ask of memory, for `make work`.

    count_memory.py PROGRAM LIBRARY

LIBRARY counts requests for memory and the most bytes that a process has at once (tools/refuse). Each command is run on
the store of so many transactions, on that of twice as many, and on that of four times as many. The status is 1 if this
isn't so of both steps:

- It makes a few more requests, since lists double, and a few for each further branch that is lost. If it made one for
  each revision, there would be thousands more.
- Beside FILE, and a byte for each of its pages, it needs no more bytes for each further revision than docs/COMMANDS.md
  says. What it finds is in a list of pages, too."""

import os
import subprocess
import sys
import tempfile

from make_large import PAGE_SIZE
from stores import REPAIR, SEARCH, STORES, count, lost_branches

SIZE = 4000
MOST_MORE_REQUESTS = 12
FOR_LOST_BRANCH = 10
# How many bytes each further revision takes, which in the stores that are searched is recovered; and each found page while
# the list of them grows.
OF_REVISION = {"etcd-revisions": 0, "etcd-get": 0, "etcd-keys": 56, "etcd-check": 56, "etcd-status": 56, REPAIR: 112, SEARCH: 56}
OF_FOUND_PAGE = {REPAIR: 72}
# Large blocks are rounded up to pages of memory.
SLACK = 2 * 4096
# Of these stores no key is `none`, buckets that every store has are missing, and pages are lost, except in those that are searched.
STATUS = {"etcd-revisions": 0, "etcd-keys": 0, "etcd-get": 1, "etcd-check": 1, "etcd-status": 0, REPAIR: 1, SEARCH: 0}


class Store:
    """A store in a folder, and what commands ask of memory on it."""

    def __init__(self, folder, shape, size):
        self.folder = folder
        self.revisions = count(size)
        os.mkdir(folder)
        file = os.path.join(folder, "FILE")
        shape(size, file)
        self.lost = lost_branches(file)
        self.length = os.path.getsize(file)
        self.pages = self.length // PAGE_SIZE

    def asked(self, program, library, words):
        """How many requests a command makes, the most bytes that it has beside FILE and its table of pages, and its status."""
        counts = os.path.join(self.folder, "counts")
        environment = {**os.environ, "LD_PRELOAD": library, "REFUSED_COUNTS": counts}
        ran = subprocess.run([program, *words.split()], cwd=self.folder, capture_output=True, timeout=60, env=environment)
        with open(counts, encoding="ascii") as it:
            requests, most = map(int, it.read().split())
        return requests, most - self.length - self.pages, ran.returncode


def most_bytes(kind, revisions, pages):
    """How many bytes so many further revisions may take, on so many further pages."""
    return OF_REVISION[kind] * revisions + OF_FOUND_PAGE.get(kind, 0) * pages + SLACK


def is_little(words, smaller, larger, before, after):
    """Whether a command asks for little more on the larger store."""
    requests, held = after[0] - before[0], after[1] - before[1]
    revisions, pages = larger.revisions - smaller.revisions, larger.pages - smaller.pages
    kind = words if words in OF_REVISION else words.split()[0]
    most = most_bytes(kind, revisions, pages)
    most_requests = MOST_MORE_REQUESTS + FOR_LOST_BRANCH * (larger.lost - smaller.lost)
    print(f"{words}: {revisions} more revisions: {requests} more requests of {most_requests}, {held} more bytes of {most}")
    is_right = before[2] == after[2] == STATUS[kind]
    return is_right and requests <= most_requests and -SLACK <= held <= most


def try_shape(program, library, shape, commands):
    """Tries commands on three stores."""
    print(f"{shape.__name__}:")
    with tempfile.TemporaryDirectory() as room:
        stores = [Store(os.path.join(room, str(times)), shape, times * SIZE) for times in (1, 2, 4)]
        for words in commands:
            asked = [store.asked(program, library, words) for store in stores]
            for step in (0, 1):
                yield is_little(words, *stores[step : step + 2], *asked[step : step + 2])


def main():
    program, library = (os.path.abspath(it) for it in sys.argv[1:])
    results = [good for shape, commands in STORES.items() for good in try_shape(program, library, shape, commands)]
    sys.exit(0 if all(results) else 1)


if __name__ == "__main__":
    main()

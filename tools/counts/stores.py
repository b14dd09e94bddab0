"""Stores as etcd keeps them, on which `make work` counts what etcd's commands do."""

import os
import subprocess
import sys

from file_format import BRANCH, BRANCH_ELEMENT, HEADER
from make_large import PAGE_SIZE
from make_store import FIRST, compacted, puts
from zero_leaves import pages_of

STORE_COMMANDS = [
    "etcd-revisions FILE --values",
    "etcd-keys FILE",
    "etcd-get FILE none",
    "etcd-check FILE",
    "etcd-status FILE",
]
REPAIR = "etcd-repair FILE -o OUT"
SEARCH = "etcd-repair FILE -o OUT --search"
VALUE = 30
# Of such values a leaf has a few alone, so that a small store has several branches.
LONG_VALUE = 1000


def run_maker(name, *words):
    subprocess.run([sys.executable, "-B", os.path.join("tools/bench", name), *map(str, words)], check=True)


def count(size):
    """How many revisions a store has after so many transactions."""
    return len(compacted([*puts(size)], FIRST + size // 2))


def revisions(size, path):
    """A sound store after so many transactions."""
    run_maker("make_store.py", path, VALUE, size)


def candidates(size, path):
    """All branches are lost, so that all leaves are found."""
    run_maker("make_store.py", path + ".whole", VALUE, size)
    run_maker("zero_leaves.py", path + ".whole", path, 0, 1000)


def lost_branches(path):
    """How many branches of a store are lost."""
    if not os.path.exists(path + ".whole"):
        return 0
    return branches_of(path + ".whole") - branches_of(path)


def branches_of(path):
    with open(path, "rb") as file:
        return len([*pages_of(file, BRANCH)])


def half_lost(size, path):
    """Every second branch is lost, so that half of the leaves are kept, and the others, between these, are found."""
    run_maker("make_store.py", path + ".whole", LONG_VALUE, size)
    run_maker("zero_leaves.py", path + ".whole", path, 0, branches_of(path + ".whole") // 2)


def first_hidden(size, path):
    """The topmost branch doesn't lead to the first one below it, whose leaves a search finds. Nothing is lost."""
    run_maker("make_store.py", path, LONG_VALUE, size)
    with open(path, "r+b") as file:
        *_, top = pages_of(file, BRANCH)
        file.seek(top * PAGE_SIZE)
        number, flags, count, overflow = HEADER.unpack(file.read(HEADER.size))
        # (each element says how far behind itself its key is)
        others = file.read(PAGE_SIZE - HEADER.size)[BRANCH_ELEMENT.size :]
        file.seek(top * PAGE_SIZE)
        file.write(HEADER.pack(number, flags, count - 1, overflow) + others)


STORES = {revisions: STORE_COMMANDS, candidates: [REPAIR], half_lost: [REPAIR], first_hidden: [SEARCH]}

#!/usr/bin/env python3
"""Counts how the work of commands grows with a file, for `make work`. It needs valgrind.

    count_growth.py PROGRAM

Each command is run on a file of a size, on one of twice the size, and on one of four times: with more entries, with
more buckets beside each other and one within another, with more pages that are lost, with more free ids, with more root
pages of states, with more of etcd's revisions, and with more of them that are found though all branches are lost, or
half of them. The second step takes about twice the instructions of the first, and would take four times as many if the
work grew with the square of the size. The status is 1 if that is so."""

import os
import sys
import tempfile

from draft import make
from instructions import instructions
from stores import STORES

COMMANDS = [
    "stats FILE",
    "pages FILE",
    "states FILE",
    "list FILE --recover",
    "keys FILE a --recover",
    "get FILE a 00000 --recover",
    "compact FILE --lost-and-found --for-bbolt -o OUT",
]
# The text of a listing has the whole path on each line, so it grows with the square of the depth. And each page of such a
# file can be the root page of a state, whose recovery is as long as the rest of the file is deep.
LEFT_OUT = {("deep", "list FILE --recover"), ("deep", "states FILE")}
MOST_GROWTH = 2.8


def in_branch(count, step, leaves):
    """The lines of leaves from page 3 on, of a branch that leads to so many, and of the root page with its bucket."""
    kids = " ".join(f"{step * n:05}>{3 + n}" for n in range(count))
    overflow = (16 + 21 * count) // 4096
    branch, root = 3 + count, 4 + count + overflow
    lines = [f"meta root={root} mark={root + 1}", f"pages {root + 1}", *leaves]
    return [*lines, f"branch {branch}+{overflow} {kids}", f"leaf {root} a>{branch}/0"]


def entries(size):
    return in_branch(size, 150, [f"leaf {3 + n} {150 * n}..{150 * n + 149}=v" for n in range(size)])


def buckets(size):
    keys = [" ".join(f"{key:05}@0" for key in range(50 * n, 50 * n + 50)) for n in range(size)]
    return ["inline 0 k=v", *in_branch(size, 50, [f"leaf {3 + n} {words}" for n, words in enumerate(keys)])]


def deep(size):
    leaves = [f"leaf {number} b>{number + 1}/0" for number in range(3, size + 4)]
    return [f"meta mark={size + 5}", f"pages {size + 5}", *leaves, f"leaf {size + 4} k=v"]


def lost(size):
    # (no page is written for each second element)
    return in_branch(2 * size, 10, [f"leaf {3 + 2 * n} {20 * n}..{20 * n + 9}=v" for n in range(size)])


def freed(size):
    return [f"meta mark={size + 4}", f"pages {size + 4}", "leaf 3 a=v", f"free 2 4-{size + 3}"]


def roots(size):
    return [f"meta mark={size + 3}", f"pages {size + 3}", "inline 0 k=v", *(f"leaf {number} b@0" for number in range(3, size + 3))]


def write_shape(shape, size, path):
    with open(path, "wb") as file:
        file.write(make("\n".join(shape(size))))


SIZES = {entries: 20, buckets: 10, deep: 200, lost: 60, freed: 120}
# Each page is the root page of a state.
ROOTS = 60
STORE_SIZE = 2000


def grows_in_proportion(program, folders, shape, words):
    """Whether the command's work doubles with the size, if it comes to the same on each file."""
    first, second, third = [instructions(folder, program, *words.split())[:2] for folder in folders]
    growth = (third[0] - second[0]) / (second[0] - first[0])
    print(f"{shape.__name__}: {words}: {first}, {second}, {third}: growth {growth:.2f}")
    return growth <= MOST_GROWTH and first[1] == second[1] == third[1]


def try_sizes(program, shape, commands, write):
    """Tries commands on files of three sizes, which `write` makes of how many times the first they have."""
    with tempfile.TemporaryDirectory() as room:
        folders = [os.path.join(room, str(times)) for times in (1, 2, 4)]
        for folder, times in zip(folders, (1, 2, 4)):
            os.mkdir(folder)
            write(times, os.path.join(folder, "FILE"))
        return [grows_in_proportion(program, folders, shape, words) for words in commands]


def try_shape(program, shape, size):
    tried = [words for words in COMMANDS if (shape.__name__, words) not in LEFT_OUT]
    return try_sizes(program, shape, tried, lambda times, path: write_shape(shape, times * size, path))


def try_store(program, shape, commands):
    return try_sizes(program, shape, commands, lambda times, path: shape(times * STORE_SIZE, path))


def main():
    program = os.path.abspath(sys.argv[1])
    results = [good for shape, size in SIZES.items() for good in try_shape(program, shape, size)]
    results += try_sizes(program, roots, ["states FILE"], lambda times, path: write_shape(roots, times * ROOTS, path))
    results += [good for shape, commands in STORES.items() for good in try_store(program, shape, commands)]
    sys.exit(0 if all(results) else 1)


if __name__ == "__main__":
    main()

#!/usr/bin/env python3
"""Compares what the program prints of random files, for `make fuzz`.

    fuzz.py PROGRAM --seed N [--seconds N | --files N] [--first N] [--folder F]

File N of a seed is the same in each run, for any number of files. Every second file is sound, and the
program must accept it and list what it was made of. The others are damaged in one to eight places. If
a comparison fails, the file is kept in the folder, and the difference is printed. The status is 1 if
one failed.
"""

import argparse
import os
import random
import resource
import sys
import tempfile
import time
from collections import Counter

from buckets import listing_text
from comparisons import compare
from damage import damage
from program import FAILURES, Program, want
from results import File
from sound import draw_sound


# The memory that this and the program may have, so that neither can use up the machine's.
MOST_MEMORY = 2**32


def compare_made(file, made, kind, listing):
    """A sound file is accepted and lists what it was made of, under both its metas."""
    want(kind == "accepted", "a sound file is", kind, file.run("check"))
    want(listing == listing_text(made.tree()), "the listing isn't what the file was made of")
    for slot, tree in enumerate(made.trees):
        if tree is not None:
            under = file.text("list", "--meta", slot)
            want(under == listing_text(tree), "the listing under meta", slot, "isn't what it was made of")


def compare_one(program, seed, number, folder):
    """Makes this file of the seed and compares all results on it. Returns what it was."""
    draw = random.Random(f"{seed} {number}")
    made = draw_sound(draw)
    is_damaged = number % 2 == 1
    if is_damaged:
        damage(draw, made)
    path = os.path.join(folder, "drawn.db")
    with open(path, "wb") as out:
        out.write(made.data)
    file = File(program, draw, path, folder)
    kind, listing = compare(file)
    if not is_damaged:
        compare_made(file, made, kind, listing)
    return f"{'damaged' if is_damaged else 'sound'}, {kind}"


def read_words():
    parser = argparse.ArgumentParser()
    parser.add_argument("program", type=os.path.abspath)
    parser.add_argument("--seed", type=int, required=True)
    parser.add_argument("--seconds", type=float, default=float("inf"))
    parser.add_argument("--files", type=int, default=sys.maxsize)
    parser.add_argument("--first", type=int, default=0)
    parser.add_argument("--folder", default="out/fuzz")
    return parser.parse_args()


def keep(words, number, folder):
    """Keeps the drawn file, and returns where."""
    os.makedirs(words.folder, exist_ok=True)
    kept = os.path.join(words.folder, f"{words.seed}-{number}.db")
    os.replace(os.path.join(folder, "drawn.db"), kept)
    return kept


def main():
    words = read_words()
    resource.setrlimit(resource.RLIMIT_AS, (MOST_MEMORY, MOST_MEMORY))
    program = Program(words.program)
    end = time.monotonic() + words.seconds
    kinds, failed, number = Counter(), 0, words.first
    print(f"seed {words.seed}", flush=True)
    with tempfile.TemporaryDirectory() as folder:
        while number < words.first + words.files and time.monotonic() < end:
            try:
                kinds[compare_one(program, words.seed, number, folder)] += 1
            except FAILURES as difference:
                failed += 1
                print(f"{keep(words, number, folder)}: {difference!r}", flush=True)
            number += 1
    for kind, count in sorted(kinds.items()):
        print(f"{count} {kind}")
    print(f"{number - words.first} files, {program.runs} runs, {failed} failed")
    sys.exit(0 if failed == 0 else 1)


if __name__ == "__main__":
    main()

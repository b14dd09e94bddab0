"""Compares what the program prints of small random files, as fuzz.py does of all, and without its limit of memory: the
program that `rt try` compiles reserves more addresses than that.

    random_files.py PROGRAM FIRST COUNT

They are the first small files of one seed, of which FIRST are left out and COUNT are tried. A damaged one takes a third
of the runs of a sound one, so three in four are damaged."""

import itertools
import os
import random
import sys
import tempfile

from fuzz import compare_one
from program import FAILURES, Program
from sound import draw_sound

SEED = 1


def is_small(number):
    length = len(draw_sound(random.Random(f"{SEED} {number}")).data)
    return length <= (15_000 if number % 2 == 1 else 4_000)


def main():
    program, first, count = Program(os.path.abspath(sys.argv[1])), int(sys.argv[2]), int(sys.argv[3])
    numbers = itertools.islice(filter(is_small, itertools.count()), first, first + count)
    failed = 0
    with tempfile.TemporaryDirectory() as folder:
        for number in numbers:
            try:
                compare_one(program, SEED, number, folder)
            except FAILURES as difference:
                failed += 1
                print(f"file {number} of seed {SEED}: {difference!r}", flush=True)
    print(f"{count} random files, {program.runs} runs, {failed} failed")
    sys.exit(failed != 0)


main()

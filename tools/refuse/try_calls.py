#!/usr/bin/env python3
"""Refuses calls of the libraries each of their requests for memory in turn, for `make memory`.

    try_calls.py CALLS LIBRARY CASES

CALLS is the program test_calls, LIBRARY refuses the requests (refuse.c), and CASES has test cases (tests/run_cases.py)
of the verbs `again` and `between`. Each run must end with the full result, or with status 3 and what was refused. The
walk of `again` goes on or begins again, and a line after the full result says so; or memory ran out before or after
it. In `between` the calls that need no memory are between two requests, so these must be neighbours. Prints how many
runs ended in which way. The status is 1 if one ends otherwise, if no walk is refused, or if there is a request between
the calls."""

import os
import subprocess
import sys
import tempfile
from collections import Counter

from blocks import blocks_of, parted
from descriptions import Descriptions
from draft import make
from run_cases import handed_over
from words import halves

SECONDS = 60
# A sink in memory fails if memory runs out.
MEMORY = {b"out of memory\n", b"can't be written\n"}
GOES_ON = b"refused: a walk goes on\n"
BEGINS_AGAIN = b"refused: a walk begins again\n"
BEFORE, AFTER = b"refused: before the calls\n", b"refused: after the calls\n"
# What may be said of a call, and what must be.
ENDS = {"again": MEMORY | {GOES_ON, BEGINS_AGAIN}, "between": MEMORY | {BEFORE, AFTER}}


def outcomes_of(calls, library, folder, words):
    """What is said if each request is refused in turn; nothing if the result is the full one."""
    mark = os.path.join(folder, "mark")

    def run(number):
        if os.path.exists(mark):
            os.remove(mark)
        refusal = {"LD_PRELOAD": library, "REFUSED_CALL": "memory", "REFUSED_NUMBER": str(number), "REFUSED_MARK": mark}
        ran = subprocess.run([calls, *words], cwd=folder, capture_output=True, timeout=SECONDS, env=refusal)
        return ran.returncode, ran.stdout, ran.stderr

    _, full, _ = run(0)

    def said_of(status, out, err):
        if (status, out) == (3, b""):
            return err
        return out.removeprefix(full) if (status, err) == (0, b"") and out.startswith(full) else b"another end"

    said = []
    result = run(1)
    while os.path.exists(mark):
        said.append(said_of(*result))
        result = run(len(said) + 1)
    return said


def is_right(verb, path, said):
    """Whether all that is said may be, and what must be said is."""
    if not {*said} <= ENDS[verb] | {b""}:
        return False
    if verb == "between":
        return said.count(BEFORE) == said.count(AFTER) == 1 and said.index(BEFORE) + 1 == said.index(AFTER)
    return said.count(GOES_ON) > 1 if path == ["."] else BEGINS_AGAIN in said


def try_call(calls, library, folder, head):
    """Tries a call, and says how its runs ended. Returns whether that is as it must be."""
    verb, words = halves(head, " ")
    words = handed_over(verb, words.split())
    said = outcomes_of(calls, library, folder, [verb, "FILE", *words])
    ends = ", ".join(f"{count} {it.decode().strip() or 'the full result'}" for it, count in Counter(said).items())
    print(f"{head}: {len(said)} requests: {ends}", flush=True)
    return is_right(verb, words, said)


def main():
    calls, library, cases = (os.path.abspath(it) for it in sys.argv[1:])
    descriptions = Descriptions()
    descriptions.begin(cases)
    good = []
    with tempfile.TemporaryDirectory() as folder:
        for block in blocks_of(cases):
            _, head, lines = parted(block)
            verb, _ = halves(head, " ")
            if verb == "file":
                with open(os.path.join(folder, "FILE"), "wb") as it:
                    it.write(make("\n".join(descriptions.lines_of(head, lines))))
            elif verb in ENDS:
                good.append(try_call(calls, library, folder, head))
    sys.exit(0 if all(good) else 1)


if __name__ == "__main__":
    main()

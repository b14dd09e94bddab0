#!/usr/bin/env python3
r"""Runs test cases: command lines and calls on files, and their results.

    run_cases.py PROGRAM CALLS FILE..

PROGRAM is luntsegi, and CALLS the program test_calls, which makes calls of the libraries. The FILEs have blocks of
lines with an empty line between. Lines that begin with `#` are a comment. A block of them is a heading. Before the
other lines of a block they say what this test case and those after it show, up to the next comment. The first word
of these other lines is the verb:

| verb | what |
|---|---|
| `file` | names the file of the next test cases, and describes it (descriptions.py, draft.py) |
| `text` | the same of a text, whose lines are those of a result (wanted.py) |
| `cut` | ends it at a length |
| `$` | a command line and its result (wanted.py) |
| `cuts` | `FIRST-LAST` and a command line, which has this result on each prefix of the file with a length in this range |
| `changes` | the same with each byte of this range changed to each other value in turn |
| `flips` | `FIRST-LAST` and a command line, which ends with status 1 and this first line with one bit of each byte in this range changed in turn |

Other verbs are calls, which crates/test_calls/src/main.rt lists, and their results. In their words keys are written
as in `file`. Walks print lines in hexadecimal, as `list` does; other calls print keys as they are.

Prints each test case that doesn't hold, after its comment and what its file is, and how many of each file do. A test
case that repeats the line of another one, on a file of the same bytes, doesn't hold either. The status is 1 unless all
hold, and unless a file of test cases holds some. With `--none` before the FILEs no test case may hold: so a file of
wrong ones shows that these are found."""

import hashlib
import os
import subprocess
import sys
import tempfile

from blocks import blocks_of, parted
from descriptions import Descriptions, Misnamed
from draft import make
from wanted import Wanted
from words import Unread, bytes_of, halves, path_of

SECONDS = 120
# The program prints the name by which it was called, so it is always called by this one.
NAME = "luntsegi"


def key(word):
    return bytes_of(word).hex()


def path(word):
    return "/".join(it.hex() for it in path_of(word)) or "."


def move(word):
    """A call on a cursor: its name, and the key after `seek=`."""
    name, mark, sought = word.partition("=")
    return name + mark + key(sought)


def piece(word):
    """Bytes that are written to a sink, or the name of some."""
    return word if word in (".", "start") else key(word)


# How the words of calls are handed over. The last way is that of all further words. Those of other calls are bytes.
WAYS = {
    "moves": (path, move),
    "opens": (path, move),
    "compares": (path, move),
    "under": (path, key),
    "enters": (path, key),
    "begins": (path, key),
    "between": (path, key),
    "bucket": (key,),
    "checksums": (key,),
    "walk": (path,),
    "listed": (path,),
    "keys": (path,),
    "depths": (path,),
    "again": (path,),
    "puts": (str, str, piece),
}


def handed_over(verb, words):
    """The words of a call as the program gets them."""
    ways = WAYS.get(verb, (bytes_of,))
    return [ways[min(i, len(ways) - 1)](word) for i, word in enumerate(words)]


class Differs(Exception):
    """A test case that doesn't hold, and its result."""

    def __str__(self):
        out, err, status, copy = self.args[0]
        return f"standard output {out!r:.600}\nstandard error {err!r:.300}\nstatus {status}, {len(copy)} bytes in OUT"


class Repeated(Exception):
    """A test case whose line was tried before, on the same file."""


FAULTS = (Differs, Misnamed, Repeated, Unread, subprocess.TimeoutExpired, ValueError, LookupError)


class Bench:
    """The file of the next test cases, with its name and their comment; how many test cases held and didn't; and where
    each line was first tried on a file of these bytes."""

    def __init__(self, program, calls):
        self.program, self.calls = os.path.abspath(program), os.path.abspath(calls)
        self.descriptions, self.tried = Descriptions(), {}

    def try_file(self, name):
        """Tries the test cases of a file. Returns how many hold and how many don't."""
        self.place = name
        self.descriptions.begin(name)
        self.file, self.held, self.failed = b"", 0, 0
        self.comment, self.named = "", ""
        with tempfile.TemporaryDirectory() as self.folder:
            for block in blocks_of(name):
                self.try_block(*parted(block))
        print(f"{name}: {self.held} hold, {self.failed} don't", flush=True)
        return self.held, self.failed

    def try_block(self, comment, head, lines):
        self.comment = comment or self.comment
        try:
            self.take(head, lines)
        except FAULTS as fault:
            self.failed += 1
            what = [self.comment, self.named, head, *lines]
            print(f"{type(fault).__name__}:", "\n".join(it for it in what if it), f"\n{fault!s:.1000}\n")

    def take(self, head, lines):
        verb, words = halves(head, " ")
        match verb:
            case "file" | "text":
                self.named = ""
                described = self.descriptions.lines_of(head, lines)
                self.file = make("\n".join(described)) if verb == "file" else Wanted(described).out
                self.named = head
            case "cut":
                self.file = self.file[: int(words)]
            case "":
                pass
            case _:
                self.try_case(verb, words.split(), lines)

    def try_case(self, verb, words, lines):
        """Tries a test case, which holds only if it is the first with its line on this file."""
        case = hashlib.sha256(self.file).digest(), verb, *words
        before = self.tried.get(case)
        self.tried[case] = before or f"`{self.named}` in {self.place}"
        if verb == "flips":
            self.flip_each(words, Wanted(lines))
        else:
            self.compare(self.result(verb, words), Wanted(it for it in lines if it))
        if before:
            raise Repeated(f"this line was tried on the same file, {before}")
        self.held += 1

    def run(self, program, *words):
        """What a program writes on the file, its status, and what it writes into OUT."""
        with open(os.path.join(self.folder, "FILE"), "wb") as it:
            it.write(self.file)
        how = {"cwd": self.folder, "stdin": subprocess.DEVNULL, "capture_output": True, "timeout": SECONDS}
        ran = subprocess.run([NAME, *words], executable=program, **how)
        out = os.path.join(self.folder, "OUT")
        copy = b""
        if os.path.exists(out):
            with open(out, "rb") as it:
                copy = it.read()
            os.remove(out)
        return ran.stdout, ran.stderr, ran.returncode, copy

    def flip_each(self, words, wanted):
        """Runs a command line with the lowest bit of each byte in a range changed, one after the other."""
        bounds, *line = words
        first, last = bounds.split("-")
        whole = self.file
        for at in range(int(first), int(last) + 1):
            self.file = whole[:at] + bytes([whole[at] ^ 1]) + whole[at + 1 :]
            result = self.run(self.program, *(bytes_of(word) for word in line))
            self.file = whole
            if (result[0].partition(b"\n")[0] + b"\n", result[2]) != (wanted.out, 1):
                raise Differs(result)

    def result(self, verb, words):
        if verb == "$":
            return self.run(self.program, *(bytes_of(word) for word in words))
        if verb in ("cuts", "changes"):
            bounds, *line = words
            return self.run(self.calls, verb, "FILE", *bounds.split("-"), *(bytes_of(word) for word in line))
        return self.run(self.calls, verb, "FILE", *handed_over(verb, words))

    def compare(self, result, wanted):
        out, err, status, copy = result
        if not self.is_copy(copy, wanted.copy) or not wanted.is_met(out, err, status):
            raise Differs(result)
        if wanted.copy == "new":
            self.file = copy

    def is_copy(self, copy, wanted):
        match wanted:
            case "":
                return copy == b""
            case "new":
                return copy != b""
            case "FILE":
                return copy == self.file
        return copy == make("\n".join(self.descriptions.known(f"file {wanted}")))


def main(words):
    program, calls, *names = words
    are_wrong = names[:1] == ["--none"]
    bench = Bench(program, calls)
    counts = [bench.try_file(name) for name in names[are_wrong:]]
    return all(failed > 0 and held == 0 if are_wrong else held > 0 and failed == 0 for held, failed in counts)


if __name__ == "__main__":
    sys.exit(0 if main(sys.argv[1:]) else 1)

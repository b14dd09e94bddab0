#!/usr/bin/env python3
"""Refuses the program each of its calls of a kind in turn, for `make memory` and `make failures`.

    sweep.py PROGRAM LIBRARY CALL STEP FILE COMMAND..

CALL is memory, read, write, once or sync; LIBRARY refuses the calls (refuse.c). After a write that is refused `once`
the device takes bytes again, but nothing more may be written to standard output; otherwise it stays full. A COMMAND
may have several words; those after the first come after FILE; OUT stands for a file that doesn't exist. With STEP 1
each call that a command makes is refused in a run of its own; with STEP N the first one and then each
N-th. A run must end as docs/COMMANDS.md says: with the full result, or with status 1, the line of the
failure, and the parts of the text and of OUT that may be there then. Writes move at most seven bytes,
so they fail at many places. Prints how many runs ended in which way. The status is 1 if one ends
otherwise, or if no failure is reported.
"""

import os
import subprocess
import sys
import tempfile
from collections import Counter

SECONDS = 60
MOST_WRITTEN = "7"
FULL = "the full result"
PART_OF_LINE = "a part of its line"
# The words with which a command may have printed a part of its text when memory runs out; None if it always may.
MAY_BEGIN = {
    "info": (),
    "page": (),
    "pages": (),
    "check": (),
    "states": (),
    "buckets": ("--sizes", "json", "--recover"),
    "keys": ("json", "--recover"),
    "get": ("json", "--recover"),
    "stats": (),
    "list": None,
    "compact": (),
    "load": (),
    "etcd-revisions": ("json",),
    "etcd-keys": ("json",),
    "etcd-get": ("json",),
    "etcd-check": None,
    "etcd-status": (),
    "etcd-repair": (),
}

# The lines that report the failure of a call; the first of them must come.
LINES = {
    "memory": ("out of memory", "cannot read FILE", "cannot make OUT"),
    "read": ("cannot read FILE",),
    "write": ("write failed", PART_OF_LINE),
    "once": ("write failed", PART_OF_LINE),
    "sync": ("write failed",),
}


class Command:
    """The words of a command on a file, whose calls are refused, and a folder for its output."""

    def __init__(self, program, library, call, file, words, folder):
        self.call = call
        self.out = os.path.join(folder, "copy.db")
        self.mark = os.path.join(folder, "mark")
        self.name, *rest = words.split()
        self.words = [program, self.name, file] + [self.out if word == "OUT" else word for word in rest]
        self.is_write = call in ("write", "once")
        self.refusal = {"LD_PRELOAD": library, "REFUSED_CALL": "write" if self.is_write else call, "REFUSED_MARK": self.mark}
        if self.is_write:
            self.refusal["REFUSED_MOST"] = MOST_WRITTEN
        if call == "once":
            self.refusal["REFUSED_ONCE"] = "1"
        names = {"FILE": file, "OUT": self.out}
        self.lines = {self.line(words, names): words for words in LINES[call]}

    @staticmethod
    def line(words, names):
        return f"error: {' '.join(names.get(word, word) for word in words.split())}\n".encode()

    def run(self, number):
        """Runs it with this call refused, and returns its status, output, error and copy."""
        for made in (self.out, self.mark):
            if os.path.exists(made):
                os.remove(made)
        refusal = {**self.refusal, "REFUSED_NUMBER": str(number)}
        ended = subprocess.run(self.words, capture_output=True, timeout=SECONDS, env=refusal)
        copy = None
        if os.path.exists(self.out):
            with open(self.out, "rb") as out:
                copy = out.read()
        return ended.returncode, ended.stdout, ended.stderr, copy

    def was_refused(self):
        return os.path.exists(self.mark)

    def may_begin(self):
        words = MAY_BEGIN[self.name]
        return words is None or any(word in self.words for word in words)

    def reads_on(self):
        """Whether all that is recovered is read after the text, so that losses are counted."""
        return self.name in ("buckets", "keys", "get") and "--recover" in self.words

    def outcome(self, full, result):
        """How a run with a refusal ended, or nothing if it ended in no documented way."""
        status, out, err, copy = result
        if result == full:
            return FULL
        if self.is_write and (status, out, copy) == (full[0], full[1], full[3]):
            return PART_OF_LINE if full[2].startswith(err) else None
        may_begin = self.may_begin() if self.call == "memory" else self.is_write
        # If a fault follows the whole text, or the program reads on after it, a call may be refused between the two.
        goes_on = full[2] != b"" or self.reads_on()
        is_part = full[1].startswith(out) and (out != full[1] or goes_on)
        is_begun = out == b"" or (may_begin and is_part)
        is_taken = copy is None or full[3].startswith(copy)
        return self.lines.get(err) if status == 1 and is_begun and is_taken else None

    def is_whole(self, full, result):
        """Whether memory ran out, and OUT is whole nevertheless. A file that is refused has none."""
        return self.call == "memory" and result[0] == 1 and full[3] not in (None, b"") and result[3] == full[3]


def most_whole(full):
    """How many requests there may be for the text that is held until OUT is whole: its room doubles."""
    return len(full[1]).bit_length()


def sweep(command, step):
    """Refuses calls in turn, and prints how the runs ended. Returns whether each ended as documented."""
    full = command.run(0)
    outcomes, wrong = Counter(), []
    number, whole = 1, []
    result = command.run(number)
    while command.was_refused():
        outcome = command.outcome(full, result)
        if outcome is None:
            wrong.append(number)
            print(f"{command.call} {number} of {command.words[1:]}: {result[:3]!r:.500}")
        # OUT is whole only if the held text is refused its memory: at the last requests, and few of them.
        if command.is_whole(full, result):
            whole.append(number)
        elif whole:
            wrong.append(number)
            print(f"{command.call} {number} of {command.words[1:]}: OUT was whole at {whole[0]}")
        outcomes[outcome] += 1
        number += step
        result = command.run(number)
    ends = ", ".join(f"{count} {outcome}" for outcome, count in outcomes.items())
    print(f"{' '.join(command.words[1:])}: {sum(outcomes.values())} times {command.call}: {ends}", flush=True)
    is_done = full[0] >= 0 and full[2] not in command.lines and result == full
    if len(whole) > most_whole(full):
        wrong.append(whole[0])
        print(f"memory of {command.words[1:]}: OUT is whole {len(whole)} times")
    return is_done and not wrong and any(outcomes[outcome] > 0 for outcome in LINES[command.call])


def main():
    program, library, call, step, file, *commands = sys.argv[1:]
    program, library = os.path.abspath(program), os.path.abspath(library)
    good = True
    with tempfile.TemporaryDirectory() as folder:
        for words in commands:
            good = sweep(Command(program, library, call, file, words, folder), int(step)) and good
    sys.exit(0 if good else 1)


if __name__ == "__main__":
    main()

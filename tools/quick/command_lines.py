"""Tries the command lines of files of test cases on files of at most 512 KB, and no calls. The program is an unproved
one, and says so in its version.

    command_lines.py PROGRAM FILE.."""

import sys

import wanted
from run_cases import Bench
from words import halves

MOST_BYTES = 2**19
left_out = 0


class Lines(Bench):
    """A bench that leaves the other test cases out. A file that one of them would make is none."""

    def is_small(self):
        return self.file is not None and len(self.file) <= MOST_BYTES

    def take(self, head, wanted):
        global left_out
        verb, _ = halves(head, " ")
        if verb in ("file", "text", "") or (verb in ("$", "cut") and self.is_small()):
            super().take(head, wanted)
        elif verb != "cut" or self.file is not None:
            left_out += verb == "$"
            self.file = None if "+ new" in wanted else self.file


def main():
    program, *names = sys.argv[1:]
    wanted.VERSION += " unproved"
    bench = Lines(program, "-")
    counts = [bench.try_file(name) for name in names]
    held, failed = (sum(it) for it in zip(*counts))
    print(f"{held} command lines hold, {failed} don't, {left_out} on larger files are left out")
    sys.exit(held == 0 or failed != 0)


main()

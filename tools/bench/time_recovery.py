#!/usr/bin/env python3
"""Times `luntsegi compact --recover`, for `make bench`.

    time_recovery.py PROGRAM SOUND DAMAGED LEAVES

SOUND is sound under meta 1, and DAMAGED is the same file with this many lost leaves. `--recover` of
both is timed beside `--meta 1` of SOUND, in turn; the figures are medians of five. The status is 1 if
a copy differs or isn't sound, if not as many pages are lost, if one takes longer than 1.3 times the
copy with `--meta`, or if one takes more memory than the file, two bytes for each page of it, and 32
MiB.
"""

import filecmp
import os
import subprocess
import sys
import time
from statistics import median

from time_commands import PAGE_SIZE

ROUNDS = 5
ROOM = 32 * 2**20
LIMIT = 1.3


class Copy:
    """A copy that is made in rounds, with its times."""

    def __init__(self, program, file, name, words, status):
        self.path = f"{file}.{name}"
        self.words = [program, *words, "-o", self.path, file]
        self.status = status
        self.seconds, self.memory = [], []

    def make(self):
        """Makes the copy once, and keeps what it took and what it printed."""
        if os.path.exists(self.path):
            os.remove(self.path)
        begin = time.perf_counter()
        child = subprocess.Popen(self.words, stdout=subprocess.PIPE)
        self.printed = child.stdout.read()
        _, status, usage = os.wait4(child.pid, 0)
        child.returncode = os.waitstatus_to_exitcode(status)
        if child.returncode != self.status:
            sys.exit(f"{' '.join(self.words)}: status {child.returncode}")
        self.seconds.append(time.perf_counter() - begin)
        self.memory.append(usage.ru_maxrss * 1024)


def is_sound(program, path):
    return subprocess.run([program, "check", path], capture_output=True, text=True).stdout == "OK\n"


def main():
    program, sound, damaged, leaves = sys.argv[1:]
    named = Copy(program, sound, "named", ["compact", "--meta", "1"], 0)
    whole = Copy(program, sound, "recovered", ["compact", "--recover", "--meta", "1"], 0)
    rest = Copy(program, damaged, "recovered", ["compact", "--recover", "--meta", "1"], 1)
    for _ in range(ROUNDS):
        for copy in (named, whole, rest):
            copy.make()
    good = filecmp.cmp(named.path, whole.path, shallow=False) and is_sound(program, rest.path)
    good = good and rest.printed.count(b"; lost: ") == int(leaves)
    length = os.path.getsize(sound)
    allowed, most = LIMIT * median(named.seconds), length + 2 * (length // PAGE_SIZE) + ROOM
    for copy in (whole, rest):
        seconds, memory = median(copy.seconds), median(copy.memory)
        print(f"{' '.join(copy.words[1:])}: {seconds:.2f} s of {allowed:.2f}, memory {memory} of {most}")
        good = good and seconds <= allowed and memory <= most
    for copy in (named, whole, rest):
        os.remove(copy.path)
    sys.exit(0 if good else 1)


if __name__ == "__main__":
    main()

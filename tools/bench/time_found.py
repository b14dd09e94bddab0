#!/usr/bin/env python3
"""Times `luntsegi compact --lost-and-found`, for `make bench`.

    time_found.py PROGRAM SOUND DAMAGED HALF LONG

Each copy of SOUND and of DAMAGED is timed beside the one that `--recover` makes of the same file, in
turn. In DAMAGED a branch is lost, so that its leaves are found. HALF and LONG are damaged files whose
freelists list a number of pages, and twice as many. The figures are medians of five. The status is 1 if
a copy isn't sound, if that of SOUND differs from the recovered one or takes longer than 1.05 times as
long, if that of DAMAGED has no `lost+found` or takes longer than 1.6 times as long, or if that of LONG
takes longer than 2.2 times that of HALF.
"""

import filecmp
import os
import subprocess
import sys
from statistics import median

from time_recovery import ROUNDS, Copy, is_sound

SOUND_LIMIT = 1.05
DAMAGED_LIMIT = 1.6
LONG_LIMIT = 2.2


def lost_and_found(program, file, status):
    return Copy(program, file, "found", ["compact", "--lost-and-found"], status)


def compared(copy, beside, limit, figure=median):
    """Whether a copy takes at most so many times what another takes, by this figure of all rounds. Prints both."""
    seconds, allowed = figure(copy.seconds), limit * figure(beside.seconds)
    print(f"{' '.join(copy.words[1:])}: {seconds:.3f} s of {allowed:.3f}")
    return seconds <= allowed


def has_found(program, path):
    words = [program, "stats", path, "lost+found"]
    return subprocess.run(words, capture_output=True).returncode == 0


def main():
    program, sound, damaged, half, long = sys.argv[1:]
    pairs = [
        (Copy(program, file, "recovered", ["compact", "--recover"], status), lost_and_found(program, file, status))
        for file, status in ((sound, 0), (damaged, 1))
    ]
    freed = [lost_and_found(program, file, 1) for file in (half, long)]
    copies = [copy for pair in pairs for copy in pair] + freed
    for _ in range(ROUNDS):
        for copy in copies:
            copy.make()
    (recovered, whole), (rest, joined) = pairs
    good = all(is_sound(program, copy.path) for copy in copies)
    good = good and filecmp.cmp(recovered.path, whole.path, shallow=False)
    good = good and has_found(program, joined.path)
    for copy, beside, limit in (
        (whole, recovered, SOUND_LIMIT),
        (joined, rest, DAMAGED_LIMIT),
        (freed[1], freed[0], LONG_LIMIT),
    ):
        good = compared(copy, beside, limit) and good
    for copy in copies:
        os.remove(copy.path)
    sys.exit(0 if good else 1)


if __name__ == "__main__":
    main()

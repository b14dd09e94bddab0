#!/usr/bin/env python3
"""Times `luntsegi compact` on sound files, for `make bench`.

    time_copies.py PROGRAM FILE..

Each copy is made into the folder of its file, and timed beside `check` of the file, beside the copy
for bbolt and beside a plain copy of as many bytes with a sync, in turn; the figures are medians of
five. The status is 1 where a copy fails, is not sound or takes longer than `check` and 1.5 times the
plain copy, where the copy for bbolt takes longer than 1.2 times the other, or where a copy takes more
memory than the file, a byte for each page of it, and 32 MiB.
"""

import os
import subprocess
import sys
import time
from statistics import median

from time_commands import PAGE_SIZE

ROUNDS = 5
ROOM = 32 * 2**20


def seconds(words, out=subprocess.DEVNULL):
    """How long the command took, which must succeed, and the most memory that it needed."""
    begin = time.perf_counter()
    child = subprocess.Popen(words, stdout=out, stderr=subprocess.DEVNULL)
    _, status, usage = os.wait4(child.pid, 0)
    child.returncode = os.waitstatus_to_exitcode(status)
    if child.returncode != 0:
        sys.exit(f"{' '.join(words)}: status {child.returncode}")
    return time.perf_counter() - begin, usage.ru_maxrss * 1024


def fresh(path):
    """A path where there is no file."""
    if os.path.exists(path):
        os.remove(path)
    return path


def one_round(program, file, copy, plain):
    """The seconds of check, of both copies and of the plain copy, and the memory of the copies."""
    checked, _ = seconds([program, "check", file])
    balanced, balanced_memory = seconds([program, "compact", "--for-bbolt", "-o", fresh(copy), file])
    copied, memory = seconds([program, "compact", "-o", fresh(copy), file])
    synced, _ = seconds(["dd", f"if={copy}", f"of={fresh(plain)}", "bs=1M", "conv=fsync"])
    return checked, copied, balanced, synced, max(memory, balanced_memory)


def time_copy(program, file):
    """Prints the figures of one file, and returns whether they are as they should be."""
    copy, plain = file + ".copy", file + ".plain"
    rounds = [one_round(program, file, copy, plain) for _ in range(ROUNDS)]
    checked, copied, balanced, synced, memory = (median(column) for column in zip(*rounds))
    seconds([program, "check", copy])
    length = os.path.getsize(file)
    allowed, most = checked + 1.5 * synced, length + length // PAGE_SIZE + ROOM
    print(
        f"compact {file}: {copied:.2f} s of {allowed:.2f} (check {checked:.2f}, plain copy "
        f"{synced:.2f}), for bbolt {balanced:.2f} s of {1.2 * copied:.2f}, {os.path.getsize(copy)} bytes "
        f"of {length}, memory {memory} of {most}"
    )
    for path in (copy, plain):
        os.remove(path)
    return copied <= allowed and balanced <= 1.2 * copied and memory <= most


def main():
    program, *files = sys.argv[1:]
    good = True
    for file in files:
        good = time_copy(program, file) and good
    sys.exit(0 if good else 1)


if __name__ == "__main__":
    main()

#!/usr/bin/env python3
"""Times commands of `luntsegi` on a sound file, for `make bench`.

    time_commands.py PROGRAM FILE COMMAND..

A COMMAND may have several words; those after the first come after FILE. Prints the seconds that each
command took, and the most memory that one needed. The status is 1 if a command fails or takes 2
seconds or more, if another form of `list` takes more than twice as long as `list`, if `states` takes more than twice as
long as `check`, or if a command needs more memory than the file's size, a byte for each of its pages, and 16 MiB.
"""

import os
import resource
import subprocess
import sys
import time

PAGE_SIZE = 4096
SECONDS = 2.0
ROOM = 16 * 2**20
CHECK, LIST = "check", "list"
TIMES = 2.0


def timed(words):
    """The status of a command and the seconds that it took."""
    begin = time.perf_counter()
    status = subprocess.run(words, stdout=subprocess.DEVNULL).returncode
    return status, time.perf_counter() - begin


def peak_memory():
    """The most memory in bytes that a command needed so far."""
    return resource.getrusage(resource.RUSAGE_CHILDREN).ru_maxrss * 1024


def slower_than(command):
    """The command that takes at least half as long."""
    return {"states": CHECK}.get(command, LIST if command.startswith(LIST + " --form ") else None)


def main():
    program, file, *commands = sys.argv[1:]
    length = os.path.getsize(file)
    most = length + length // PAGE_SIZE + ROOM
    good, taken = True, {}
    for command in commands:
        name, *operands = command.split()
        status, seconds = timed([program, name, file, *operands])
        peak = peak_memory()
        print(f"{command}: status {status}, {seconds:.2f} s of {SECONDS:.2f}, at most {peak} bytes of {most}")
        good = good and status == 0 and seconds < SECONDS and peak <= most
        taken[command] = seconds
    for command, other in ((it, slower_than(it)) for it in taken):
        if other in taken:
            print(f"{command}: {taken[command] / taken[other]:.2f} times `{other}`, of {TIMES}")
            good = good and taken[command] <= TIMES * taken[other]
    sys.exit(0 if good else 1)


if __name__ == "__main__":
    main()

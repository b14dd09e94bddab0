#!/usr/bin/env python3
"""Times `luntsegi etcd-repair`, for `make bench`.

    time_repairs.py PROGRAM STORE DAMAGED ..

Each DAMAGED is STORE without some branches, so that all that it lost is found. Its repair is timed
beside `compact --lost-and-found` of the same file, in turn. The figures are the least of five, since
some runs take less than 0.1 s, and the disk may add as much. The status is 1 if a repair isn't, byte for
byte, the copy of STORE for bbolt, or takes longer than twice as long as what is beside it.
"""

import filecmp
import os
import sys

from time_found import compared, lost_and_found
from time_recovery import ROUNDS, Copy

LIMIT = 2.0


def main():
    program, store, *damaged = sys.argv[1:]
    whole = Copy(program, store, "whole", ["compact", "--for-bbolt"], 0)
    whole.make()
    pairs = [(lost_and_found(program, file, 1), Copy(program, file, "repaired", ["etcd-repair"], 1)) for file in damaged]
    for _ in range(ROUNDS):
        for found, repaired in pairs:
            found.make()
            repaired.make()
    good = True
    for found, repaired in pairs:
        good = filecmp.cmp(whole.path, repaired.path, shallow=False) and good
        good = compared(repaired, found, LIMIT, min) and good
        os.remove(found.path)
        os.remove(repaired.path)
    os.remove(whole.path)
    sys.exit(0 if good else 1)


if __name__ == "__main__":
    main()

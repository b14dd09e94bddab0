#!/usr/bin/env python3
"""Makes a damaged copy of a database of make_large.py, for `make bench`.

    zero_leaves.py SOURCE FILE [LEAVES [BRANCHES]]

In the copy this many leaf pages, a thousand without a number, and this many branch pages, none without
a number, are overwritten with zeros. They are at equal distances. The root page isn't among them.
"""

import shutil
import sys

from file_format import BRANCH, HEADER, LEAF, META_RECORD
from make_large import PAGE_SIZE


def pages_of(file, kind):
    """The numbers of the pages of this kind but the root page, in rising order."""
    file.seek(HEADER.size)
    root = META_RECORD.unpack(file.read(META_RECORD.size))[4]
    file.seek(0)
    number = 0
    while page := file.read(PAGE_SIZE):
        own, flags, _, _ = HEADER.unpack(page[: HEADER.size])
        if own == number and flags == kind and number != root:
            yield number
        number += 1


def main():
    source, target = sys.argv[1:3]
    counts = [int(word) for word in sys.argv[3:]] or [1000]
    shutil.copyfile(source, target)
    with open(target, "r+b") as file:
        for kind, count in zip((LEAF, BRANCH), counts):
            numbers = list(pages_of(file, kind))
            for i in range(count):
                file.seek(numbers[len(numbers) * i // count] * PAGE_SIZE)
                file.write(bytes(PAGE_SIZE))


if __name__ == "__main__":
    main()

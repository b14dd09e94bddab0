#!/usr/bin/env python3
"""Makes a sound database file of long values, for `make bench`.

    make_long.py FILE [ENTRIES]

The format is that of docs/FORMAT.md. The root bucket has ENTRIES values of 100,000 bytes, each on a
leaf of its own whose span has 25 pages, below branches. The default is 2,600, in a file of about
256 MiB.
"""

import sys

from file_format import FREELIST, LEAF, VALUE_FLAGS
from make_large import FREELIST_PAGE, Pages, leaf_body, put_branches, put_meta

VALUE = bytes(range(250)) * 400


def put_long_leaf(pages, key):
    """What leads to a leaf with one long value: its key and its number."""
    return key, pages.put(LEAF, 1, leaf_body([(VALUE_FLAGS, key, VALUE)]))


def main():
    count = int(sys.argv[2]) if len(sys.argv) > 2 else 2_600
    with open(sys.argv[1], "wb") as out:
        pages = Pages(out)
        level = [put_long_leaf(pages, b"value-%012d" % number) for number in range(count)]
        while len(level) > 1:
            level = list(put_branches(pages, level))
        pages.put_at(FREELIST_PAGE, FREELIST, 0, b"")
        put_meta(pages, 0, level[0][1])
        put_meta(pages, 1, level[0][1])


if __name__ == "__main__":
    main()

#!/usr/bin/env python3
"""Makes a damaged database file with a long freelist, for `make bench`.

    make_freed.py FILE FREE

The format is that of docs/FORMAT.md. The root bucket has a thousand small entries. Their first leaf is
overwritten with zeros. After their pages there is the freelist, which lists FREE pages that follow it.
The file ends before them.
"""

import struct
import sys

from file_format import FREELIST, LONG_FORM
from make_large import FIRST_PAGE, FREELIST_PAGE, PAGE_SIZE, Pages, entries, put_bucket, put_meta

ENTRIES = 1000
HEADER_AND_COUNT = 24


def main():
    free = int(sys.argv[2])
    span = (HEADER_AND_COUNT + 8 * (free + 1) + PAGE_SIZE - 1) // PAGE_SIZE
    with open(sys.argv[1], "wb") as out:
        pages = Pages(out)
        root = put_bucket(pages, entries(0, ENTRIES))
        first = pages.next + span
        ids = struct.pack("<QQ", free + 1, FREELIST_PAGE) + struct.pack("<%dQ" % free, *range(first, first + free))
        freelist = pages.put(FREELIST, LONG_FORM, ids)
        pages.leave_free(free)
        put_meta(pages, 0, root, freelist)
        put_meta(pages, 1, root, freelist)
        out.seek(FIRST_PAGE * PAGE_SIZE)
        out.write(bytes(PAGE_SIZE))


if __name__ == "__main__":
    main()

#!/usr/bin/env python3
"""Makes a sound database file that is mostly free pages, for `make bench`.

    make_sparse.py FILE [FREE]

The format is that of docs/FORMAT.md. The root bucket has a hundred thousand small entries. After their
pages there are FREE free pages, and then the freelist. The default is 60,000, in a file of about
256 MiB.
"""

import struct
import sys

from file_format import FREELIST
from make_large import FREELIST_PAGE, Pages, entries, put_bucket, put_meta

ENTRIES = 100_000


def main():
    free = int(sys.argv[2]) if len(sys.argv) > 2 else 60_000
    with open(sys.argv[1], "wb") as out:
        pages = Pages(out)
        root = put_bucket(pages, entries(0, ENTRIES))
        pages.free.append(FREELIST_PAGE)
        pages.leave_free(free)
        ids = struct.pack("<%dQ" % len(pages.free), *pages.free)
        freelist = pages.put(FREELIST, len(pages.free), ids)
        put_meta(pages, 0, root, freelist)
        put_meta(pages, 1, root, freelist)


if __name__ == "__main__":
    main()

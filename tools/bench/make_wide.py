#!/usr/bin/env python3
"""Makes a sound database file with many buckets in its root bucket, for `make bench`.

    make_wide.py FILE [BUCKETS]

The format is that of docs/FORMAT.md. The buckets are empty and inline, in leaves that are filled in
key order, below branches. The default is 200,000.
"""

import sys

from file_format import BUCKET_FLAGS, FREELIST, empty_bucket
from make_large import FREELIST_PAGE, Pages, put_bucket, put_meta


def main():
    count = int(sys.argv[2]) if len(sys.argv) > 2 else 200_000
    with open(sys.argv[1], "wb") as out:
        pages = Pages(out)
        names = (b"bucket-%012d" % number for number in range(count))
        root = put_bucket(pages, ((BUCKET_FLAGS, name, empty_bucket()) for name in names))
        pages.put_at(FREELIST_PAGE, FREELIST, 0, b"")
        put_meta(pages, 0, root)
        put_meta(pages, 1, root)


if __name__ == "__main__":
    main()

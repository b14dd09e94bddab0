#!/usr/bin/env python3
"""Makes a sound database file of nested buckets, for `make memory` and `make bench`.

    make_deep.py FILE [BUCKETS [PAGE_SIZE]]

The format is that of docs/FORMAT.md. Each bucket is `b` in the preceding one, and has a leaf of its
own. The last one is empty and inline, on page 3. The root page is the last page of the file. The
default is 20,000 buckets and pages of 1,024 bytes.
"""

import sys

from file_format import BUCKET_FLAGS, BUCKET_HEAD, FREELIST, HEADER, LEAF, LEAF_ELEMENT, META
from file_format import empty_bucket, meta_record

FREELIST_PAGE = 2
FIRST_PAGE = 3


def page(number, flags, count, body=b""):
    return HEADER.pack(number, flags, count, 0) + body


def meta(number, root, page_size):
    """A meta page; its number is its transaction too."""
    return page(number, META, 0, meta_record(page_size, root, FREELIST_PAGE, root + 1, number))


def leaf(number, value):
    """A leaf with one bucket, `b`."""
    element = LEAF_ELEMENT.pack(BUCKET_FLAGS, LEAF_ELEMENT.size, 1, len(value))
    return page(number, LEAF, 1, element + b"b" + value)


def pages(root, page_size):
    """All pages in order, without the zeros at their ends."""
    yield meta(0, root, page_size)
    yield meta(1, root, page_size)
    yield page(FREELIST_PAGE, FREELIST, 0)
    yield leaf(FIRST_PAGE, empty_bucket())
    for number in range(FIRST_PAGE + 1, root + 1):
        yield leaf(number, BUCKET_HEAD.pack(number - 1, 0))


def main():
    path = sys.argv[1]
    buckets = int(sys.argv[2]) if len(sys.argv) > 2 else 20_000
    page_size = int(sys.argv[3]) if len(sys.argv) > 3 else 1024
    with open(path, "wb") as out:
        for filled in pages(FIRST_PAGE + buckets - 1, page_size):
            out.write(filled.ljust(page_size, b"\0"))


if __name__ == "__main__":
    main()

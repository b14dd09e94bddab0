#!/usr/bin/env python3
"""Makes a large sound database file, for `make bench`.

    make_large.py FILE [ENTRIES [PAGE_SIZE]]

The format is that of docs/FORMAT.md. The default is a million entries on pages of 4,096 bytes, in a file of about 256 MiB.
They are in a few buckets, in leaves that are filled in key order, below branches of three levels.
After the pages of each bucket a few pages are free.
"""

import struct
import sys

from file_format import BRANCH, BRANCH_ELEMENT, BUCKET_FLAGS, BUCKET_HEAD, FREELIST, HEADER, LEAF
from file_format import LEAF_ELEMENT, META, VALUE_FLAGS, meta_record

PAGE_SIZE = 4096
FREELIST_PAGE = 2
FIRST_PAGE = 3
FREE_PAGES = 8
BUCKETS = 4
FILLING = bytes(range(256)) * 2


class Pages:
    """Writes pages one after another, and keeps the numbers of the free ones."""

    def __init__(self, out, page_size=PAGE_SIZE):
        self.out, self.page_size = out, page_size
        self.next = FIRST_PAGE
        self.free = []

    def put_at(self, number, flags, count, body):
        """Writes a page with the further pages that it needs, and returns their number."""
        overflow = (HEADER.size + len(body) - 1) // self.page_size
        span = HEADER.pack(number, flags, count, overflow) + body
        self.out.seek(number * self.page_size)
        self.out.write(span.ljust((overflow + 1) * self.page_size, b"\0"))
        return overflow

    def put(self, flags, count, body):
        """The number of the page that was put."""
        number = self.next
        self.next += 1 + self.put_at(number, flags, count, body)
        return number

    def leave_free(self, count):
        self.free.extend(range(self.next, self.next + count))
        self.next += count


def leaf_length(element):
    _, key, value = element
    return LEAF_ELEMENT.size + len(key) + len(value)


def leaf_body(elements):
    """The table of a leaf's elements, each (flags, key, value), and their data after it."""
    table, data = [], []
    begin = LEAF_ELEMENT.size * len(elements)
    for flags, key, value in elements:
        table.append(LEAF_ELEMENT.pack(flags, begin, len(key), len(value)))
        data += (key, value)
        begin += len(key) + len(value) - LEAF_ELEMENT.size
    return b"".join(table + data)


def branch_length(element):
    key, _ = element
    return BRANCH_ELEMENT.size + len(key)


def branch_body(elements):
    """The table of a branch's elements, each (key, child), and their keys after it."""
    table, data = [], []
    begin = BRANCH_ELEMENT.size * len(elements)
    for key, child in elements:
        table.append(BRANCH_ELEMENT.pack(begin, len(key), child))
        data.append(key)
        begin += len(key) - BRANCH_ELEMENT.size
    return b"".join(table + data)


def runs(elements, length_of, page_size):
    """The elements in runs, each as long as a page takes."""
    run, length = [], HEADER.size
    for element in elements:
        if length + length_of(element) > page_size:
            yield run
            run, length = [], HEADER.size
        run.append(element)
        length += length_of(element)
    yield run


def put_leaves(pages, elements):
    """What leads to the leaves: their first keys and their numbers."""
    for run in runs(elements, leaf_length, pages.page_size):
        first_key = run[0][1]
        yield first_key, pages.put(LEAF, len(run), leaf_body(run))


def put_branches(pages, children):
    """What leads to the branches above these children."""
    for run in runs(children, branch_length, pages.page_size):
        first_key = run[0][0]
        yield first_key, pages.put(BRANCH, len(run), branch_body(run))


def put_bucket(pages, elements):
    """The number of the bucket's root page."""
    level = list(put_leaves(pages, elements))
    while len(level) > 1:
        level = list(put_branches(pages, level))
    return level[0][1]


def entries(first, count):
    """Entries with keys of 24 bytes that rise, and with values of 184 to 247 bytes."""
    for number in range(first, first + count):
        start = number % 256
        length = 184 + number * 37 % 64
        yield VALUE_FLAGS, b"entry-%018d" % number, FILLING[start : start + length]


def buckets(pages, count):
    """The elements of the root bucket, for a number of entries below it."""
    for number in range(BUCKETS):
        first = count * number // BUCKETS
        end = count * (number + 1) // BUCKETS
        root = put_bucket(pages, entries(first, end - first))
        pages.leave_free(FREE_PAGES)
        yield BUCKET_FLAGS, b"bucket-%d" % number, BUCKET_HEAD.pack(root, 0)


def put_meta(pages, number, root, freelist=FREELIST_PAGE):
    """A meta page; its number is its transaction too."""
    pages.put_at(number, META, 0, meta_record(pages.page_size, root, freelist, pages.next, number))


def make(out, count, page_size):
    pages = Pages(out, page_size)
    root = put_bucket(pages, buckets(pages, count))
    free = struct.pack("<%dQ" % len(pages.free), *pages.free)
    pages.put_at(FREELIST_PAGE, FREELIST, len(pages.free), free)
    put_meta(pages, 0, root)
    put_meta(pages, 1, root)


def main():
    name, *numbers = sys.argv[1:]
    count, page_size = [*map(int, numbers), *(1_000_000, PAGE_SIZE)[len(numbers) :]]
    with open(name, "wb") as out:
        make(out, count, page_size)


if __name__ == "__main__":
    main()

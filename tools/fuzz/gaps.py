"""The gaps of a file with sound trees, read from the file's own bytes: data that isn't where bbolt would have written it."""

import re

from file_format import BRANCH, BRANCH_ELEMENT, BUCKET_FLAGS, BUCKET_HEAD, HEADER, LEAF_ELEMENT
from results import named

GAP = re.compile(rb"page \d+: gap (?:before|after) [0-9a-f]+")


class Element:
    """The key, the place of the value, and the end of the data of an element, and what it leads to: a page, the place of
    an inline page, or nothing."""

    def __init__(self, data, place, index, is_branch):
        here = place + HEADER.size * (1 + index)
        if is_branch:
            position, length, self.child = BRANCH_ELEMENT.unpack_from(data, here)
            more, is_bucket = 0, False
        else:
            kind, position, length, more = LEAF_ELEMENT.unpack_from(data, here)
            self.child, is_bucket = None, kind == BUCKET_FLAGS
        self.start = here + position
        self.end = self.start + length + more
        self.key = data[self.start : self.start + length]
        self.inline = None
        if is_bucket:
            root, _ = BUCKET_HEAD.unpack_from(data, self.start + length)
            self.child = root or None
            self.inline = None if root else self.start + length + BUCKET_HEAD.size


def elements_at(data, place):
    _, flags, count, _ = HEADER.unpack_from(data, place)
    return [Element(data, place, index, flags == BRANCH) for index in range(count)]


def gap_at(place, number, elements):
    """The line of the first gap of a page that begins there, if it has one."""
    written, before = place + HEADER.size * (1 + len(elements)), None
    for element in elements:
        if element.start != written:
            where = f"before {named([element.key])}" if before is None else f"after {named([before])}"
            return [f"page {number}: gap {where}"]
        written, before = element.end, element.key
    return []


def gaps_below(data, page_size, number):
    """The lines of the gaps of a page and of what is below it, in the order of ways."""
    elements = elements_at(data, number * page_size)
    yield from gap_at(number * page_size, number, elements)
    for element in elements:
        if element.child is not None:
            yield from gaps_below(data, page_size, element.child)
        elif element.inline is not None:
            yield from gap_at(element.inline, number, elements_at(data, element.inline))


def without_gaps(lines):
    return [line for line in lines if not GAP.match(line.encode())]

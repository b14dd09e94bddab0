"""What bbolt fails on when it writes into a sound file, read from the file's own bytes, and compared with what
`check --for-bbolt` prints."""

from file_format import BRANCH, BRANCH_ELEMENT, BUCKET_FLAGS, BUCKET_HEAD, CHECKSUM, HEADER, LEAF_ELEMENT
from file_format import MAGIC, META, META_BYTES, META_RECORD, VERSION, checksum
from program import want
from results import info_of, read

LONGEST_KEY = 32_768
SYSTEM_PAGE = 4096
LARGE_TXID = 2**63


class Page:
    """The elements of a page that begins there: of a branch keys and children, of a leaf keys, and the places of the
    values of buckets, or nothing."""

    def __init__(self, data, place):
        self.number, flags, count, _ = HEADER.unpack_from(data, place)
        self.is_branch = flags == BRANCH
        self.keys, self.leads = [], []
        for index in range(count):
            here = place + HEADER.size * (1 + index)
            if self.is_branch:
                position, length, child = BRANCH_ELEMENT.unpack_from(data, here)
                self.leads.append(child)
            else:
                kind, position, length, _ = LEAF_ELEMENT.unpack_from(data, here)
                self.leads.append(here + position + length if kind == BUCKET_FLAGS else None)
            self.keys.append(data[here + position : here + position + length])

    def has_large_value(self):
        return any(lead is None and len(key) > LONGEST_KEY for key, lead in zip(self.keys, self.leads))


class Found:
    """What is found on the ways of a file."""

    def __init__(self, data, page_size):
        self.data = data
        self.page_size = page_size
        self.lines = []

    def page(self, number):
        return Page(self.data, number * self.page_size)

    def add(self, is_so, number, words):
        if is_so:
            self.lines.append(f"page {number}: {words}")

    def bucket(self, number, in_root):
        """The ways of a bucket with a root page."""
        depths = list(self.leaf_depths(number, 1))
        self.below(number, in_root, None, 1, depths[0])

    def leaf_depths(self, number, depth):
        """The depth of each leaf of a bucket, from the left."""
        page = self.page(number)
        if not page.is_branch:
            yield depth
        for child in page.leads if page.is_branch else []:
            yield from self.leaf_depths(child, depth + 1)

    def below(self, number, in_root, branch_key, depth, leaf_depth):
        page = self.page(number)
        is_leaf = not page.is_branch
        self.add(page.is_branch and len(page.keys) == 1, number, "branch of one child")
        self.add(is_leaf and in_root and None in page.leads, number, "value in the root bucket")
        self.add(is_leaf and page.has_large_value(), number, "key too large for bbolt")
        begins_so = branch_key is None or page.keys[:1] == [branch_key]
        self.add(not begins_so, number, "first key isn't its branch key")
        self.add(is_leaf and depth != leaf_depth, number, "leaf at another depth")
        for key, lead in zip(page.keys, page.leads):
            if page.is_branch:
                self.below(lead, in_root, key, depth + 1, leaf_depth)
            elif lead is not None:
                self.inner(number, lead)

    def inner(self, host, place):
        """A bucket whose value stands there, on the page `host`."""
        root, _ = BUCKET_HEAD.unpack_from(self.data, place)
        if root != 0:
            self.bucket(root, False)
            return
        page = Page(self.data, place + BUCKET_HEAD.size)
        self.add(page.has_large_value(), host, "key too large for bbolt")
        self.add(page.number != 0, host, "inline page with a number")


def txid_for_bbolt(data, place):
    """The page size and the transaction id of a meta that is valid to bbolt, or nothing."""
    if len(data) < place + META_BYTES:
        return None
    record = data[place + HEADER.size : place + META_BYTES - CHECKSUM.size]
    magic, version, page_size, *_, txid = META_RECORD.unpack(record)
    (stored,) = CHECKSUM.unpack_from(data, place + META_BYTES - CHECKSUM.size)
    is_valid = (magic, version) == (MAGIC, VERSION) and stored in (0, checksum(record))
    return (page_size, txid) if is_valid else None


def opened_by_bbolt(data):
    """The slot and the page size with which bbolt opens a file, or nothing."""
    first = txid_for_bbolt(data, 0)
    page_size = SYSTEM_PAGE if first is None else first[0]
    second = txid_for_bbolt(data, page_size)
    if len(data) < SYSTEM_PAGE or (first is None and second is None):
        return None
    is_second = first is None or (second is not None and second[1] > first[1])
    return int(is_second), page_size


def lines_of_file(data, info):
    """What is found in the file as a whole."""
    slot, page_size, mark = info["meta"], info["page size"], info["high water"]
    if opened_by_bbolt(data) != (slot, page_size):
        yield f"meta {slot}: not taken by bbolt"
    if info["txid"] >= LARGE_TXID:
        yield f"meta {slot}: txid too large for bbolt"
    for number in (0, 1):
        if HEADER.unpack_from(data, number * page_size)[:2] != (number, META):
            yield f"page {number}: not a meta page for bbolt"
    past = [number for number in range(max(mark - 9, 0), mark) if (number + 1) * page_size > len(data)]
    if len(past) == 1:
        yield f"page {past[0]}: past the end of the file"
    elif past:
        yield f"pages {past[0]} to {past[-1]}: past the end of the file"


def text_of(lines):
    """What `check` prints of a file with these lines."""
    lines = list(lines)
    return "\n".join([*lines, f"{len(lines)} errors found" if lines else "OK", ""]).encode()


def compare_for_bbolt(file):
    """`check --for-bbolt` prints what is found in a sound file, to any extent, and nothing else of its copies than what
    the file holds."""
    info, data = info_of(file), read(file.path)
    found = Found(data, info["page size"])
    found.bucket(info["root"], True)
    lines = [*lines_of_file(data, info), *found.lines]
    for words in ([], ["--lost-and-found"]):
        unaided = file.run("check", *words)
        result = file.run("check", "--for-bbolt", *words)
        wanted = text_of(lines) if unaided.is_ok() else unaided.out
        want(result.out == wanted, "check --for-bbolt", *words, "printed:", result, "and not", wanted)
    result = file.run("check", "--for-bbolt", "--meta", info["meta"])
    want(result.out == text_of(found.lines), "check --for-bbolt --meta printed:", result, "and not", found.lines)
    holds_more = any(line.endswith(("root bucket", "for bbolt")) for line in found.lines)
    compare_copies_for_bbolt(file, holds_more, lines)


def compare_copies_for_bbolt(file, holds_more, lines):
    """A copy for bbolt has what the file holds that bbolt fails on, and the plain copy has branches of one child
    besides."""
    for words, stays in ((["--for-bbolt"], ()), ([], ("branch of one child",))):
        copy = file.copy("copy.db")
        file.text("compact", *words, "-o", copy)
        result = file.program.run("check", "--for-bbolt", copy)
        more = [line for line in result.out.decode().splitlines()[:-1] if not line.endswith(stays or ("\n",))]
        is_held = all(line.endswith(("root bucket", "key too large for bbolt")) for line in more)
        want(is_held, "a copy", *words, ":", result, "of a file with", lines)
        want(bool(more) == holds_more, "a copy", *words, ":", result, "of a file with", lines)


def compare_refused_for_bbolt(file, checked):
    """Of a file that isn't sound, `check --for-bbolt` prints what `check` prints."""
    result = file.run("check", "--for-bbolt")
    printed = result.status, result.out, result.err
    want(printed == (checked.status, checked.out, checked.err), "check --for-bbolt printed:", result)

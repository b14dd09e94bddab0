"""The bucket `key` of a member's file, page by page, and what is left of the file if it is damaged."""

from dataclasses import dataclass, replace

from answers import Revision
from file_format import BRANCH, BRANCH_ELEMENT, BUCKET_FLAGS, BUCKET_HEAD, HEADER, LEAF_ELEMENT, META_RECORD, VALUE_FLAGS

# A revision's key: two numbers with a byte between. A deletion has one byte more.
KEY_BYTES = 17
NUMBER_BYTES = 8
# The bucket of the revisions.
STORE = b"key"
# Up to which transaction revisions may be missing if none is, and if any may be.
NOTHING, ANY = 0, 2**63
# The kind of a field that no record has: it takes three bits.
NO_KIND = 7


def numbers_of(key):
    """The numbers of a revision: of its transaction, and of the change in it."""
    return tuple(int.from_bytes(part, "big") for part in (key[:NUMBER_BYTES], key[KEY_BYTES - NUMBER_BYTES : KEY_BYTES]))


def main_of(key):
    return numbers_of(key)[0]


def unread_line(key):
    """What `etcd-check` prints of a revision with this key that etcd can't read."""
    main, sub = numbers_of(key)
    return f"revision {main}.{sub}: not a record"


def spoiled(record):
    """A record of which one byte is changed, so that etcd can't read it."""
    return bytes([record[0] | NO_KIND]) + record[1:]


def read_number(data, at):
    """A number of a record, and where it ends."""
    number = shift = 0
    while True:
        number |= (data[at] & 0x7F) << shift
        at, shift = at + 1, shift + 7
        if data[at - 1] < 0x80:
            return number, at


def read_record(data):
    """The revision that etcd stores in a record."""
    fields, at = {1: b"", 5: b""}, 0
    while at < len(data):
        tag, at = read_number(data, at)
        number, at = read_number(data, at)
        if tag & 7 == 2:
            fields[tag >> 3], at = data[at : at + number], at + number
        else:
            fields[tag >> 3] = number
    return Revision(fields[1], fields[5], *(fields.get(field, 0) for field in (2, 3, 4, 6)))


@dataclass(frozen=True)
class Damage:
    """What is lost of a file, what is left of it, and which leaves of its store are. Without its end a file may have no
    freelist: then pages that etcd has freed are found too."""

    lost: str
    data: bytes
    leaves: list[int]
    # Up to which transaction revisions may be missing.
    bound: int
    is_cut: bool = False
    # The keys of the revisions that etcd can't read, and the options with which the file is repaired.
    unread: tuple[bytes, ...] = ()
    options: tuple[str, ...] = ()

    def status(self):
        """The status of the repair. What takes no revision here is a damage that pages don't show."""
        return 0 if self.bound == NOTHING else 1

    def lines(self):
        """What the repair prints of entries that it doesn't copy, and of what may be missing."""
        bounds = {NOTHING: [], ANY: ["any revision may be missing"]}
        bound = bounds.get(self.bound, [f"revisions up to {self.bound} may be missing"])
        return [unread_line(key) + "; not copied" for key in sorted(self.unread)] + bound


class Store:
    """The pages of the bucket `key` of a file: its root page, its other branches and its leaves, in order, and the key
    that ends each; and the meta and the root page of the newest state."""

    def __init__(self, data):
        self.data = data
        metas = [self.meta_at(HEADER.size)]
        metas.append(self.meta_at(metas[0][2] + HEADER.size))
        self.newest_meta = max((0, 1), key=lambda place: metas[place][8])
        _, _, self.page_size, _, self.newest_root, _, _, self.mark, _ = metas[self.newest_meta]
        self.head = dict(self.elements(self.newest_root, BUCKET_FLAGS))[STORE]
        self.root, self.sequence = BUCKET_HEAD.unpack_from(self.head)
        self.branches, self.leaves, self.ends = [], [], {}
        self.add_below(self.root, None)

    def meta_at(self, at):
        return META_RECORD.unpack_from(self.data, at)

    def header(self, number):
        return HEADER.unpack_from(self.data, number * self.page_size)

    def elements(self, number, wanted):
        """The elements of a leaf with these flags: their keys and what they store."""
        for i in range(self.header(number)[2]):
            at = number * self.page_size + HEADER.size + i * LEAF_ELEMENT.size
            flags, offset, key_bytes, value_bytes = LEAF_ELEMENT.unpack_from(self.data, at)
            middle = at + offset + key_bytes
            if flags == wanted:
                yield self.data[at + offset : middle], self.data[middle : middle + value_bytes]

    def children(self, number):
        """The elements of a branch: their keys, and the pages that they lead to."""
        for i in range(self.header(number)[2]):
            at = number * self.page_size + HEADER.size + i * BRANCH_ELEMENT.size
            offset, key_bytes, child = BRANCH_ELEMENT.unpack_from(self.data, at)
            yield self.data[at + offset : at + offset + key_bytes], child

    def add_below(self, number, end):
        """Adds the branches and the leaves that a branch leads to. The keys of each are below that of the next one."""
        keys, children = zip(*self.children(number))
        for child, its_end in zip(children, [*keys[1:], end]):
            self.ends[child] = its_end
            if self.header(child)[1] == BRANCH:
                self.branches.append(child)
                self.add_below(child, its_end)
            else:
                self.leaves.append(child)

    def bound(self, pages):
        """Up to which transaction revisions may be missing if these pages are lost. Nothing ends the last leaf, nor the
        bucket, nor the state."""
        ends = [self.ends.get(number) for number in pages]
        return ANY if None in ends else max(map(main_of, ends))

    def end_of(self, number):
        """Where the span of a page ends."""
        return (number + 1 + self.header(number)[3]) * self.page_size

    def page(self, number):
        return self.data[number * self.page_size : self.end_of(number)]

    def free_pages(self):
        """The pages that nothing leads to. The other buckets are on the newest root page."""
        used = set()
        for number in (self.newest_root, self.root, *self.branches, *self.leaves):
            used.update(range(number, self.end_of(number) // self.page_size))
        return [number for number in range(2, self.mark) if number not in used]

    def zeroed(self, lost, pages):
        """The damage if these pages are overwritten with zeros."""
        data = bytearray(self.data)
        for number in pages:
            span = slice(number * self.page_size, self.end_of(number))
            data[span] = bytes(span.stop - span.start)
        return Damage(lost, bytes(data), [one for one in self.leaves if one not in pages], self.bound(pages))

    def damages(self):
        """The file with its root page lost, without half of the branches, without some leaves and a branch, and cut."""
        yield self.zeroed("the root page", [self.root])
        if self.branches:
            yield self.zeroed("every second branch", self.branches[::2])
        yield self.zeroed("some leaves and a branch", self.leaves[2::5] + self.branches[:1])
        yield self.cut()

    def cut(self):
        """The damage if the file ends before the leaf in the middle, by place. Half of a file may lack nothing but free
        pages."""
        data = self.data[: sorted(self.leaves)[len(self.leaves) // 2] * self.page_size]
        pages = [self.newest_root, self.root, *self.branches, *self.leaves]
        lost = {one for one in pages if self.end_of(one) > len(data)}
        left = [one for one in self.leaves if one not in lost]
        return Damage("half of its leaves", data, left, self.bound(lost), True)

    def unread(self, keys):
        """The damage if etcd can't read the records under these keys."""
        data, records = self.data, dict(self.revisions(self.leaves))
        for key in keys:
            data = data.replace(key + records[key], key + spoiled(records[key]))
        bound = max(map(main_of, keys))
        return Damage("what etcd can't read", data, self.leaves, bound, unread=tuple(keys))

    def led_past(self, leaf):
        """The damage if the bucket begins at one of its leaves: its pages are as they must be, but nothing leads to the
        other leaves."""
        at = self.data.index(STORE + self.head, self.newest_root * self.page_size) + len(STORE)
        head = BUCKET_HEAD.pack(leaf, self.sequence)
        data = self.data[:at] + head + self.data[at + len(head) :]
        return Damage("what leads to its leaves", data, self.leaves, NOTHING, options=("--search",))

    def with_freed(self, damage, pages):
        """A damage of a file in which the pages that etcd freed are these, and then zeros."""
        data, left = bytearray(damage.data), iter(pages)
        for number in self.free_pages():
            page = next(left, bytes(self.page_size))
            header = HEADER.pack(number, *HEADER.unpack_from(page)[1:])
            data[number * self.page_size : (number + 1) * self.page_size] = header + page[HEADER.size :]
        return replace(damage, data=bytes(data))

    def revisions(self, leaves):
        """The keys and the records on some leaves."""
        for number in leaves:
            yield from self.elements(number, VALUE_FLAGS)

    def last(self, leaf):
        """The key and the record of the last revision on a leaf."""
        return list(self.revisions([leaf]))[-1]

    def newest(self, leaves, without=()):
        """The newest revision of each name on some leaves, without those under some keys. A deletion has version 0, and
        the number of its transaction too."""
        found = {}
        for key, value in sorted(self.revisions(leaves), key=lambda it: it[0][:KEY_BYTES]):
            if key not in without:
                one = replace(read_record(value), modified=main_of(key))
                found[one.name] = one
        return found

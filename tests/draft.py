"""Makes database files from the lines that describe them.

| line | what |
|---|---|
| `meta root=4 mark=5 ..` | fields of both metas that differ from those of a fresh file; `meta0` and `meta1` of one |
| `size N` | pages have this size, even if the metas say another |
| `pages N` | this many pages, with the metas and an empty freelist at page 2; later lines may overwrite them |
| `inline SEQUENCE ELEMENT ..` | an inline bucket, to which `@0`, `@1` and so on refer |
| `leaf PAGE ELEMENT ..`, `branch PAGE KEY>CHILD ..` | a page; `PAGE+1` is one with overflow 1 |
| `free PAGE 4 7-9 ..`, `long PAGE COUNT 4 7-9 ..` | a freelist in the short form, or in the long one; `10-20/2*3` is each second page, thrice |
| `zero PAGE ..` | pages of zeros |
| `at OFFSET BYTES ..` | bytes over those at a place |
| `cut LENGTH` | the file ends there |
| `example NAME` | the file of this name in `examples`, which another program wrote |
| `nested COUNT` | this many buckets `b`, each in the preceding one, in pages of 1,024 bytes |
| `levels COUNT` | this many pages of 1,024 bytes, each but the last a branch with one child |

An ELEMENT of a leaf is `KEY=VALUE`; a bucket `KEY:BYTES` with these bytes as its value, `KEY>PAGE/SEQUENCE` with a
root page, or `KEY@N`, the inline bucket number N. `0..9=v` is one for each number, in five digits, and `#0..9=v` in
two bytes. Before an element of a page, `~7` leaves a gap of seven zeros in the data.

A KEY or a VALUE `%7.0` is etcd's key of the revision 7.0, and `%7.0t` that of a deletion. The element
`%7.0{NAME,FIELD=..,..}` is a revision with a record of etcd: its fields `created` and `modified` are 7, its `version`
is 1, and `lease` is 0 and `value` empty, unless they are given. A deletion has only a name. What is 0 or empty isn't
written.

Nothing here decides a layout: pages are placed exactly as the lines say.
"""

import os
import re
import struct

import etcd_format as etcd
import file_format as form
from words import Unread, bytes_of, halves, numbers_of

FRESH = {
    "magic": form.MAGIC,
    "version": form.VERSION,
    "page_size": 4096,
    "flags": 0,
    "root": 3,
    "sequence": 0,
    "freelist": 2,
    "mark": 4,
    "txid": 0,
}
GREATEST_LENGTH = 2**32 - 1
EXAMPLES = os.path.join(os.path.dirname(os.path.abspath(__file__)), "..", "examples")
REVISION = r"%(\d+)\.(\d+)(t?)"


def make(text):
    """The file that these lines describe."""
    draft = Draft()
    for line in text.split("\n"):
        if line:
            verb, words = halves(line, " ")
            draft.take(verb, words.split())
    return bytes(draft.file)


def read_example(name):
    with open(os.path.join(EXAMPLES, name), "rb") as file:
        return file.read()


def meta_page(number, fields):
    """A meta page up to the end of its record."""
    record = form.META_RECORD.pack(*(fields[name] for name in FRESH))
    checksum = form.CHECKSUM.pack(form.checksum(record))
    return form.HEADER.pack(number, form.META, 0, 0) + record + checksum


def header(word, flags, count):
    """The header of the page that a word such as `3` or `3+1` names."""
    number, overflow = halves(word, "+")
    return form.HEADER.pack(int(number), flags, min(count, 0xFFFF), int(overflow or 0))


def packed(head, records, pack):
    """A page of records (a gap, a key, what follows the key, and the rest of its element)."""
    table, data = [], bytearray()
    for i, (gap, key, stored, rest) in enumerate(records):
        data += bytes(gap)
        position = 16 * (len(records) - i) + len(data)
        table.append(pack(min(position, GREATEST_LENGTH), len(key), len(stored), rest))
        data += key + stored
    return head + b"".join(table) + bytes(data)


def leaf_element(position, key_length, value_length, flags):
    return form.LEAF_ELEMENT.pack(flags, position, key_length, value_length)


def branch_element(position, key_length, _, child):
    return form.BRANCH_ELEMENT.pack(position, key_length, child)


def stored_bytes(word):
    """The bytes of a key or a value."""
    revision = re.fullmatch(REVISION, word)
    if revision is None:
        return bytes_of(word)
    main, sub, mark = revision.groups()
    return etcd.revision_key(int(main), int(sub)) + mark.encode()


def record(revision, words):
    """The record of a revision, of the words between its braces."""
    main, _, mark = re.fullmatch(REVISION, revision).groups()
    name, *pairs = words.split(",")
    fields = {} if mark else {"created": main, "modified": main, "version": "1"}
    fields |= dict(halves(pair, "=") for pair in pairs)
    fields["name"] = name
    if not fields.keys() <= etcd.TAGS.keys():
        raise Unread(words)
    return etcd.record({it: (bytes_of if etcd.has_bytes(it) else int)(word) for it, word in fields.items()})


def with_gaps(words):
    """Each word that isn't a gap, and the length of the gap before it."""
    gap = 0
    for word in words:
        if re.fullmatch(r"~\d+", word):
            gap = int(word[1:])
        else:
            yield gap, word
            gap = 0


class Draft:
    """A file that is being described."""

    def __init__(self):
        self.page_size = None
        self.metas = [dict(FRESH), dict(FRESH, txid=1)]
        self.inline = []
        self.file = bytearray()

    def take(self, verb, words):
        match verb:
            case "meta":
                self.set_fields(self.metas, words)
            case "meta0" | "meta1":
                self.set_fields([self.metas[int(verb[4:])]], words)
            case "example":
                self.file = bytearray(read_example(*words))
            case "size":
                self.page_size = int(words[0])
            case "pages":
                self.begin(int(words[0]))
            case "inline":
                head = form.BUCKET_HEAD.pack(0, int(words[0]))
                self.inline.append(head + self.leaf("0", words[1:]))
            case "leaf":
                self.put(words[0], self.leaf(words[0], words[1:]))
            case "branch":
                self.put(words[0], self.branch(words[0], words[1:]))
            case "free":
                self.put(words[0], self.freelist(words[0], words[1:]))
            case "long":
                self.put(words[0], self.long_freelist(words[0], words[1:]))
            case "zero":
                for number in words:
                    self.put(number, bytes(self.size()))
            case "at":
                self.patch(int(words[0]), b"".join(bytes_of(word) for word in words[1:]))
            case "cut":
                del self.file[int(words[0]) :]
            case "nested":
                self.nest(int(words[0]))
            case "levels":
                self.stack(int(words[0]))
            case _:
                raise Unread(verb)

    @staticmethod
    def set_fields(metas, words):
        for word in words:
            name, value = halves(word, "=")
            if name not in FRESH:
                raise Unread(word)
            for fields in metas:
                fields[name] = int(value)

    def size(self):
        return self.metas[0]["page_size"] if self.page_size is None else self.page_size

    def begin(self, pages):
        self.file = bytearray(self.size() * pages)
        for number, fields in enumerate(self.metas):
            self.patch(number * self.size(), meta_page(number, fields))
        self.patch(2 * self.size(), form.HEADER.pack(2, form.FREELIST, 0, 0))

    def patch(self, at, data):
        """Overwrites the bytes at a place. A file that ends before them is made longer."""
        self.file += bytes(max(at + len(data) - len(self.file), 0))
        self.file[at : at + len(data)] = data

    def put(self, word, page):
        self.patch(int(halves(word, "+")[0]) * self.size(), page)

    def leaf(self, word, words):
        records = [it for gap, element in with_gaps(words) for it in self.elements(gap, element)]
        return packed(header(word, form.LEAF, len(records)), records, leaf_element)

    def elements(self, gap, word):
        """The elements of a word: one, or one for each number of a range."""
        numbers = re.fullmatch(r"(#?)(\d+)\.\.(\d+)=(.*)", word)
        if numbers is None:
            return [(gap, *self.element(word))]
        value = bytes_of(numbers[4])
        keys = range(int(numbers[2]), int(numbers[3]) + 1)
        return [(gap, n.to_bytes(2, "big") if numbers[1] else b"%05d" % n, value, form.VALUE_FLAGS) for n in keys]

    def element(self, word):
        """The key of an element, what it stores, and its flags."""
        revision = re.fullmatch(rf"({REVISION})\{{(.*)\}}", word)
        if revision is not None:
            return stored_bytes(revision[1]), record(revision[1], revision[5]), form.VALUE_FLAGS
        parts = re.fullmatch(r"([^=:>@]*)([=:>@])(.*)", word)
        if parts is None:
            raise Unread(word)
        key, mark, rest = parts.groups()
        if mark == ">":
            root, sequence = halves(rest, "/")
            stored = form.BUCKET_HEAD.pack(int(root), int(sequence))
        else:
            stored = self.inline[int(rest)] if mark == "@" else stored_bytes(rest)
        return stored_bytes(key), stored, form.VALUE_FLAGS if mark == "=" else form.BUCKET_FLAGS

    @staticmethod
    def branch(word, words):
        elements = [(gap, *halves(element, ">")) for gap, element in with_gaps(words)]
        records = [(gap, stored_bytes(key), b"", int(child)) for gap, key, child in elements]
        return packed(header(word, form.BRANCH, len(records)), records, branch_element)

    @staticmethod
    def freelist(word, words):
        ids = [*numbers_of(words)]
        return header(word, form.FREELIST, len(ids)) + struct.pack(f"<{len(ids)}Q", *ids)

    @staticmethod
    def long_freelist(word, words):
        count, *words = words
        ids = [int(count), *numbers_of(words)]
        return header(word, form.FREELIST, form.LONG_FORM) + struct.pack(f"<{len(ids)}Q", *ids)

    def nest(self, count):
        """The outermost bucket is on the last page, which is the root, and the innermost on page 3, inline and empty."""
        self.set_fields(self.metas, ["page_size=1024", f"root={count + 2}", f"mark={count + 3}"])
        self.begin(count + 3)
        self.inline.append(form.empty_bucket())
        self.take("leaf", ["3", f"b@{len(self.inline) - 1}"])
        for number in range(4, count + 3):
            self.take("leaf", [str(number), f"b>{number - 1}/0"])

    def stack(self, count):
        """The root page is the first of these pages, and an empty leaf the last."""
        self.set_fields(self.metas, ["page_size=1024", f"mark={count + 3}"])
        self.begin(count + 3)
        for number in range(3, count + 2):
            self.take("branch", [str(number), f"a>{number + 1}"])
        self.take("leaf", [str(count + 2)])

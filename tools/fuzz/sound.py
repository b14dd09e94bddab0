"""Makes random sound files (docs/FORMAT.md, docs/SOUND.md)."""

import struct
from dataclasses import dataclass, field

from buckets import Bucket, draw_number, draw_root
from file_format import BRANCH, BRANCH_ELEMENT, BUCKET_FLAGS, BUCKET_HEAD, FREELIST, HEADER, LEAF
from file_format import LEAF_ELEMENT, LONG_FORM, META, META_RECORD, NONE_WRITTEN, VALUE_FLAGS, meta_record

PAGE_SIZES = [1024] * 6 + [2048, 4096, 4096, 8192, 16384]
MOST_PAGES_ON_A_WAY = 64
FIRST_PAGE = 2


@dataclass(frozen=True)
class Field:
    """A number in a file: what it is, where it is, and how wide it is."""

    of: str
    place: int
    width: int


def fields_at(of, form, place):
    """The fields of a record that stands there."""
    for code in form.format.lstrip("<"):
        width = struct.calcsize("<" + code)
        yield Field(of, place, width)
        place += width


@dataclass
class Page:
    """A page and its span. It gets its number when all pages are known."""

    kind: int
    elements: list = field(default_factory=list)
    gaps: list = field(default_factory=list)
    overflow: int = 0
    number: int = 0

    def length(self):
        data = sum(len(element.data()) for element in self.elements)
        return HEADER.size * (1 + len(self.elements)) + data + sum(self.gaps)


@dataclass
class Child:
    """An element of a branch."""

    key: bytes
    page: Page

    form = BRANCH_ELEMENT
    flags = VALUE_FLAGS

    def data(self):
        return self.key

    def header(self, position):
        return BRANCH_ELEMENT.pack(position, len(self.key), self.page.number)


@dataclass
class Value:
    """An element of a leaf with a value, or with an inline bucket."""

    key: bytes
    value: bytes
    flags: int = VALUE_FLAGS

    form = LEAF_ELEMENT

    def data(self):
        return self.key + self.value

    def header(self, position):
        return LEAF_ELEMENT.pack(self.flags, position, len(self.key), len(self.data()) - len(self.key))

    def fields(self, place):
        """The fields of an inline bucket's head, which stands there, and of its page."""
        yield from fields_at("bucket", BUCKET_HEAD, place)
        place += BUCKET_HEAD.size
        yield from fields_at("inline", HEADER, place)
        count = HEADER.unpack_from(self.value, BUCKET_HEAD.size)[2]
        for index in range(count):
            yield from fields_at("inline", LEAF_ELEMENT, place + HEADER.size * (1 + index))


@dataclass
class Rooted(Value):
    """An element of a leaf with a bucket that has a root page; its value ends with `value`."""

    page: Page = None
    sequence: int = 0

    def data(self):
        return self.key + BUCKET_HEAD.pack(self.page.number, self.sequence) + self.value

    def fields(self, place):
        return fields_at("bucket", BUCKET_HEAD, place)


def page_bytes(page, number, overflow, place=0):
    """The header, the table and the data of a branch or a leaf that stands there, and their fields."""
    count = len(page.elements)
    fields = list(fields_at("header", HEADER, place))
    table, data = [], []
    end = HEADER.size * (1 + count)
    for index, (element, gap) in enumerate(zip(page.elements, page.gaps)):
        begin = HEADER.size * (1 + index)
        fields += fields_at("element", element.form, place + begin)
        data += [bytes(gap), element.data()]
        end += gap
        table.append(element.header(end - begin))
        if element.flags == BUCKET_FLAGS:
            fields += element.fields(place + end + len(element.key))
        end += len(element.data())
    header = HEADER.pack(number, page.kind, count, overflow)
    return b"".join([header, *table, *data]), fields


class Trees:
    """Draws the pages of buckets."""

    def __init__(self, draw, page_size):
        self.draw = draw
        self.page_size = page_size
        self.pages = []

    def page(self, kind, elements):
        draw = self.draw
        roomy = draw.random() < 0.1
        gaps = [draw.choice([0, 0, draw.randrange(9)]) if roomy else 0 for _ in elements]
        made = Page(kind, elements, gaps)
        made.overflow = (made.length() - 1) // self.page_size
        if draw.random() < 0.05:
            made.overflow += draw.randint(1, 2)
        self.pages.append(made)
        return made

    def inline(self, bucket):
        """The value of an inline bucket, of which the page's number and overflow say nothing."""
        draw = self.draw
        elements = [Value(key, value) for key, value in bucket.in_order()]
        gaps = [draw.choice([0, 0, 0, 3]) for _ in elements]
        number, overflow = draw.choice([(0, 0), (draw_number(draw), draw.randrange(2**32))])
        body, _ = page_bytes(Page(LEAF, elements, gaps), number, overflow)
        return BUCKET_HEAD.pack(0, bucket.sequence) + body + draw.choice([b"", draw.randbytes(5)])

    def element(self, key, item):
        if not isinstance(item, Bucket):
            return Value(key, item)
        is_flat = not any(isinstance(held, Bucket) for held in item.entries.values())
        if is_flat and self.draw.random() < 0.6:
            return Value(key, self.inline(item), BUCKET_FLAGS)
        tail = self.draw.choice([b"", b"", self.draw.randbytes(7)])
        return Rooted(key, tail, BUCKET_FLAGS, self.bucket(item), item.sequence)

    def bucket(self, bucket):
        """The root page of a bucket."""
        elements = [self.element(key, item) for key, item in bucket.in_order()]
        level = list(self.leaves(elements))
        height = 1
        if self.draw.random() < 0.05:
            level = [self.deeper(child) for child in level]
            height = 2
        while len(level) > 1:
            level = list(self.branches(level, height))
            height += 1
        return self.lengthen(level[0], height)

    def leaves(self, elements):
        """The leaves of a bucket, each as a child of what is above: its lower bound and its page."""
        draw = self.draw
        most = draw.choice([1, 3, 20, 65_534])
        before = b""
        for run in self.runs(elements, most) or [[]]:
            first = run[0].key if run else b"\0"
            after_before = before + b"\0"
            if before and draw.random() < 0.1 and after_before < first:
                yield Child(after_before, self.page(LEAF, []))
                before = after_before
            yield Child(self.bound(before, first), self.page(LEAF, run))
            before = run[-1].key if run else first

    def deeper(self, child):
        """The child itself, or below a branch of its own."""
        return child if self.draw.random() < 0.7 else Child(child.key, self.page(BRANCH, [child]))

    def runs(self, elements, most):
        """The elements in runs, mostly such as a page takes."""
        made, room = [], 0
        for element in elements:
            taken = LEAF_ELEMENT.size + len(element.data())
            if taken > room or len(made[-1]) >= most:
                made.append([])
                room = self.page_size - HEADER.size
            made[-1].append(element)
            room -= taken
        return made

    def bound(self, before, first):
        """A key that is above the one before and not above the first: a short one at times."""
        if self.draw.random() < 0.7:
            return first
        ends = range(1, len(first) + 1)
        return next(first[:end] for end in ends if first[:end] > before)

    def branches(self, level, height):
        """The branches above a level; each has two children at least where the way gets long."""
        least = 1 if height < 8 else 2
        while level:
            count = self.draw.randint(least, 9)
            yield Child(level[0].key, self.page(BRANCH, level[:count]))
            level = level[count:]

    def lengthen(self, child, height):
        """The page of this child, at times below branches that have one child each."""
        more = 0
        if self.draw.random() < 0.05:
            more = self.draw.choice([1, MOST_PAGES_ON_A_WAY - height])
        for _ in range(more):
            child = Child(child.key, self.page(BRANCH, [child]))
        return child.page


@dataclass
class State:
    """What one meta leads to: a tree of buckets, its pages, and the page of its freelist if any."""

    tree: Bucket
    root: Page
    pages: list
    freelist: Page


def draw_state(draw, page_size, kind):
    tree = kind.draw_root(draw, page_size)
    trees = kind.trees(draw, page_size)
    root = trees.bucket(tree)
    freelist = Page(FREELIST) if draw.random() < 0.85 else None
    return State(tree, root, trees.pages, freelist)


@dataclass
class Made:
    """A sound file: its bytes, where its fields stand, and what it holds under its metas."""

    page_size: int
    data: bytearray = None
    fields: list = field(default_factory=list)
    slot: int = 0
    trees: list = field(default_factory=lambda: [None, None])

    def tree(self):
        return self.trees[self.slot]


class Image:
    """The bytes of a file while its pages are written."""

    def __init__(self, draw, page_size):
        self.draw = draw
        self.made = Made(page_size)
        self.spans = []
        self.past_end = draw.choice([0, 0, 0, draw.randint(1, 3)])

    def place(self, state, older):
        """Gives each page its number, with free ones between them."""
        draw = self.draw
        pages = state.pages + (older.pages if older else [])
        free = [Page(0, overflow=draw.randrange(3)) for _ in range(draw.choice([0, 2, len(pages)]))]
        pages = pages + free
        if older and older.freelist:
            pages.append(older.freelist)
        if state.freelist:
            taken = sum(1 + page.overflow for page in state.pages)
            ids = sum(1 + page.overflow for page in pages) - taken + self.past_end
            state.freelist.overflow = 8 * (ids + 3) // self.made.page_size
            pages.append(state.freelist)
        draw.shuffle(pages)
        number = FIRST_PAGE
        for page in pages:
            page.number = number
            number += 1 + page.overflow
        self.last = pages[-1]
        self.mark = number + self.past_end
        filling = draw.choice([bytes, draw.randbytes])
        self.made.data = bytearray(filling(number * self.made.page_size))

    def put(self, place, data, fields):
        self.made.data[place : place + len(data)] = data
        self.made.fields += fields

    def put_tree(self, state):
        for page in state.pages:
            place = page.number * self.made.page_size
            body, fields = page_bytes(page, page.number, page.overflow, place)
            self.put(place, body, fields)

    def put_freelist(self, state):
        """The freelist's page, with all that this state doesn't use, in any order."""
        page = state.freelist
        used = {0, 1}
        for other in state.pages + [page]:
            used.update(range(other.number, other.number + 1 + other.overflow))
        ids = [number for number in range(self.mark) if number not in used]
        if self.draw.random() < 0.5:
            self.draw.shuffle(ids)
        count = len(ids)
        if self.draw.random() < 0.3 or count >= LONG_FORM:
            count, ids = LONG_FORM, [count] + ids
        header = HEADER.pack(page.number, FREELIST, count, page.overflow)
        place = page.number * self.made.page_size
        form = struct.Struct(f"<{'Q' * len(ids)}")
        fields = fields_at("id", form, place + HEADER.size)
        self.put(place, header + form.pack(*ids), [*fields_at("header", HEADER, place), *fields])

    def put_meta(self, slot, state, txid):
        draw = self.draw
        freelist = state.freelist.number if state.freelist else NONE_WRITTEN
        flags = draw.choice([0, draw.randrange(2**32)])
        record = meta_record(
            self.made.page_size, state.root.number, freelist, self.mark, txid,
            state.tree.sequence, flags,
        )
        header = HEADER.pack(slot, META, 0, 0) if draw.random() < 0.9 else draw.randbytes(HEADER.size)
        place = slot * self.made.page_size
        self.put(place, header + record, fields_at("meta", META_RECORD, place + HEADER.size))
        self.made.trees[slot] = state.tree

    def end(self):
        """The file may go on past the mark, or end within free pages."""
        draw, data = self.draw, self.made.data
        if self.past_end == 0 and draw.random() < 0.2:
            data += draw.randbytes(draw.randint(1, 3 * self.made.page_size))
        elif self.last.kind == 0:
            place = self.last.number * self.made.page_size
            del data[draw.randint(place, len(data)) :]


@dataclass(frozen=True)
class Kind:
    """What is drawn: the root bucket, its pages, and the greatest transaction id."""

    draw_root: object = draw_root
    trees: object = Trees
    most_txid: int = 2**64 - 1


def draw_sound(draw, kind=Kind()):
    """A sound file under both its metas, or under the one that is valid."""
    page_size = draw.choice(PAGE_SIZES)
    state = draw_state(draw, page_size, kind)
    older = draw_state(draw, page_size, kind) if draw.random() < 0.5 else None
    image = Image(draw, page_size)
    image.place(state, older)
    image.put_tree(state)
    if state.freelist:
        image.put_freelist(state)
    if older:
        image.put_tree(older)
    slot = draw.randrange(2)
    txid = draw.randint(1, kind.most_txid)
    image.made.slot = slot
    image.put_meta(slot, state, txid)
    metas = draw.randrange(4)
    if older or metas > 0:
        is_tied = slot == 0 and metas == 3
        image.put_meta(1 - slot, older or state, txid if is_tied else draw.randrange(txid))
    image.end()
    return image.made

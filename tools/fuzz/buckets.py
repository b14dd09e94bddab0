"""Random buckets as data: what a sound file is made of, and what it must list."""

from dataclasses import dataclass, field

LETTERS = b"\x00ab\xff"
PRINTABLE = bytes(range(0x20, 0x7F))
MOST_ENTRIES = 250
MOST_BUCKETS_NESTED = 40


@dataclass
class Bucket:
    """A sequence, and entries by their keys: each the bytes of a value, or a bucket."""

    sequence: int
    entries: dict = field(default_factory=dict)

    def in_order(self):
        return sorted(self.entries.items())


def listing(bucket, path=()):
    """Each path that holds something, with its item, in the order of paths."""
    for key, item in bucket.in_order():
        yield path + (key,), item
        if isinstance(item, Bucket):
            yield from listing(item, path + (key,))


def listing_text(bucket):
    """What `list` prints of a file whose root bucket this is."""
    lines = []
    for path, item in listing(bucket):
        is_bucket = isinstance(item, Bucket)
        shown = f" bucket {item.sequence}" if is_bucket else f" = {item.hex()}"
        lines.append("/".join(key.hex() for key in path) + shown + "\n")
    return "".join(lines).encode()


def draw_number(draw):
    """A number of 64 bits, mostly small."""
    return draw.choice([0, draw.randrange(100), draw.randrange(2**64), 2**64 - 1])


def draw_key(draw, page_size):
    kind = draw.randrange(20)
    if kind == 0 and draw.random() < 0.05:
        return draw.randbytes(draw.choice([32_767, 32_768]) + draw.randint(1, 2))
    if kind == 0:
        return draw.randbytes(draw.randint(1, 2 * page_size))
    if kind < 7:
        return bytes(draw.choices(LETTERS, k=draw.randint(1, 4)))
    if kind < 13:
        return b"key-%06d" % draw.randrange(1000)
    return draw.randbytes(draw.randint(1, 40))


def draw_value(draw, page_size):
    kind = draw.randrange(20)
    if kind == 0:
        return draw.randbytes(draw.randint(0, 3 * page_size))
    if kind < 4:
        return b""
    if kind < 12:
        return bytes(draw.choices(PRINTABLE, k=draw.randint(1, 60)))
    return draw.randbytes(draw.randint(0, 100))


class Maker:
    """Draws buckets with so few entries in all that a file stays small."""

    def __init__(self, draw, page_size):
        self.draw = draw
        self.page_size = page_size
        self.left = draw.choice([5, 30, MOST_ENTRIES])

    def item(self, depth):
        if self.draw.random() < 0.25 and depth < 5:
            return self.bucket(depth + 1)
        return draw_value(self.draw, self.page_size)

    def bucket(self, depth=0):
        draw = self.draw
        made = Bucket(draw_number(draw))
        count = draw.choice([0, 1, draw.randint(2, 8), draw.randint(9, 120)])
        for _ in range(max(count, 3 if depth == 0 else 0)):
            if self.left > 0:
                self.left -= 1
                made.entries[draw_key(draw, self.page_size)] = self.item(depth)
        return made

    def nested(self):
        """A bucket with one bucket in it, and so on."""
        made = self.bucket(depth=4)
        for _ in range(self.draw.randint(5, MOST_BUCKETS_NESTED)):
            outer = Bucket(draw_number(self.draw))
            outer.entries[draw_key(self.draw, self.page_size)] = made
            made = outer
        return made


def draw_root(draw, page_size):
    """A root bucket, mostly with all kinds of things in it."""
    maker = Maker(draw, page_size)
    kind = draw.randrange(20)
    if kind == 0:
        return Bucket(draw_number(draw))
    if kind == 1:
        return maker.nested()
    return maker.bucket()

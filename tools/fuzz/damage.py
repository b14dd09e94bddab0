"""Damages a file at random, in one to eight places."""

from file_format import CHECKSUM, HEADER, META_BYTES, META_RECORD, checksum

MOST_PLACES = 8


def put_number(data, place, width, number):
    data[place : place + width] = (number % 256**width).to_bytes(width, "little")


def draw_field(draw, made):
    """A field that is in the file, each kind with the same probability; or nothing."""
    fields = [field for field in made.fields if field.place + field.width <= len(made.data)]
    kinds = sorted({field.of for field in fields})
    of = draw.choice(kinds) if kinds else None
    return draw.choice([field for field in fields if field.of == of] or [None])


def set_field(draw, made):
    """Gives a field another number."""
    field = draw_field(draw, made)
    if field:
        width = field.width
        now = int.from_bytes(made.data[field.place : field.place + width], "little")
        numbers = [0, 1, now - 1, now + 1, draw.randrange(40), 256**width - 1, draw.randrange(256**width)]
        put_number(made.data, field.place, width, draw.choice(numbers))


def copy_field(draw, made):
    """Gives a field the bytes of another one."""
    to, source = draw_field(draw, made), draw_field(draw, made)
    if to and source.place + to.width <= len(made.data):
        made.data[to.place : to.place + to.width] = made.data[source.place : source.place + to.width]


def set_byte(draw, made):
    """Gives a byte another number, mostly one near the beginning of a page."""
    place = draw.randrange(len(made.data))
    if draw.random() < 0.7:
        place -= place % made.page_size
        place += draw.randrange(200)
    if place < len(made.data):
        made.data[place] = draw.randrange(256)


def copy_page(draw, made):
    """Puts a page in the place of another one, at times with the other's number."""
    pages = len(made.data) // made.page_size
    source, to = (draw.randrange(pages) * made.page_size for _ in range(2))
    header = draw.choice([0, 8])
    made.data[to + header : to + made.page_size] = made.data[source + header : source + made.page_size]


def set_metas(draw, made):
    """Gives a byte of each meta another number."""
    place = draw.randrange(HEADER.size, META_BYTES)
    for meta in (0, made.page_size):
        made.data[meta + place] ^= draw.randint(1, 255)


def cut(draw, made):
    """Cuts the file, at a page or within one."""
    length = draw.randrange(len(made.data) + 1)
    if draw.random() < 0.5:
        length -= length % made.page_size
    del made.data[max(length, 1):]


def mend_sums(made):
    """Gives both metas the checksums of their records."""
    for place in (HEADER.size, made.page_size + HEADER.size):
        if place + META_BYTES <= len(made.data):
            end = place + META_RECORD.size
            CHECKSUM.pack_into(made.data, end, checksum(made.data[place:end]))


DAMAGES = [set_field] * 6 + [copy_field] * 2 + [set_byte] * 5 + [copy_page] * 2 + [set_metas, cut]


def damage(draw, made):
    for _ in range(draw.choice([1, 1, 2, draw.randint(3, MOST_PLACES)])):
        if len(made.data) >= 2 * made.page_size:
            draw.choice(DAMAGES)(draw, made)
    if draw.random() < 0.8:
        mend_sums(made)

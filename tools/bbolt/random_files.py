"""What bbolt does with sound files, for compare.py: with random ones in which `check --for-bbolt` finds nothing, and with
small ones in which it finds one thing."""

import os
import random
import shutil
import sys

HERE = os.path.dirname(os.path.abspath(__file__))
sys.path += [os.path.join(HERE, *names) for names in (("..", "fuzz"), ("..", "format"), ("..", "..", "tests"))]

from buckets import Bucket, draw_key, draw_number, draw_root  # noqa: E402
from draft import make  # noqa: E402
from sound import Kind, Trees, draw_sound  # noqa: E402

# Files as small as can be, and the line that `check --for-bbolt` prints of each. bbolt fails on each, but for two.
FAILING = {
    "one_child": (
        "meta mark=6\npages 6\nleaf 3 b>4/0\nbranch 4 k>5\nleaf 5 k=v l=w",
        b"page 4: branch of one child",
    ),
    "root_value": ("meta\npages 4\nleaf 3 a=b", b"page 3: value in the root bucket"),
    "large_key": (
        "meta mark=13\npages 13\nleaf 3 b>4/0\nleaf 4+8 k*32769=v",
        b"page 4: key too large for bbolt",
    ),
    "first_key": (
        "meta mark=7\npages 7\nleaf 3 b>4/0\nbranch 4 a>5 m>6\nleaf 5 c=v d=v\nleaf 6 m=v n=v",
        b"page 5: first key isn't its branch key",
    ),
    "leaf_depth": (
        "meta mark=9\npages 9\nleaf 3 b>4/0\nbranch 4 a>5 c>6\nbranch 5 a>7 b>8\nleaf 6 c=v\nleaf 7 a=v\nleaf 8 b=v",
        b"page 6: leaf at another depth",
    ),
    "inline_number": (
        "meta mark=5\npages 5\ninline 0 k=v\nleaf 3 a>4/0 b@0\nleaf 4 k=v\nat 12370 \\x04",
        b"page 3: inline page with a number",
    ),
    "not_taken": ("meta page_size=1024\npages 4\ninline 0 k=v\nleaf 3 b@0\nat 16 \\x00", b"meta 1: not taken by bbolt"),
    "page_size": (
        "size 1024\nmeta page_size=1024\nmeta0 page_size=512\npages 4\ninline 0 k=v\nleaf 3 b@0",
        b"meta 1: not taken by bbolt",
    ),
    "large_txid": (
        "meta\nmeta1 txid=18446744073709551615\npages 4\ninline 0 k=v\nleaf 3 b@0",
        b"meta 1: txid too large for bbolt",
    ),
    "meta_page": ("meta\npages 4\ninline 0 k=v\nleaf 3 b@0\nat 4096 \\x02", b"page 1: not a meta page for bbolt"),
    "past_end": (
        "meta mark=64\npages 4\ninline 0 k=v\nfree 2 4-63\nleaf 3 b@0",
        b"pages 4 to 63: past the end of the file",
    ),
}

# What bbolt bears before and since this release, which looks for meta 1 at each page size, and whose check reads the
# headers of meta pages.
RELEASE = (1, 4)
BORNE_BEFORE, BORNE_SINCE = {"meta_page"}, {"not_taken"}

MOST_TXID = 2**40


class AlikeTrees(Trees):
    """Pages of buckets as bbolt writes them in what it relies on. All else is drawn as ever."""

    def inline(self, bucket):
        value = bytearray(super().inline(bucket))
        value[16:24] = bytes(8)
        return bytes(value)

    def bound(self, before, first):
        return first

    def leaves(self, elements):
        return (child for child in super().leaves(elements) if child.page.elements or not elements)

    def deeper(self, child):
        return child

    def lengthen(self, child, height):
        return child.page


def buckets_alone(draw, page_size):
    """A root bucket with buckets alone."""
    made = Bucket(draw_number(draw))
    for _ in range(draw.randint(1, 3)):
        made.entries[draw_key(draw, page_size)] = draw_root(draw, page_size)
    return made


KINDS = [Kind(buckets_alone, AlikeTrees, MOST_TXID)] * 3 + [Kind(buckets_alone, Trees, MOST_TXID)]


def try_random(programs, folder, count, seed):
    """How many files were drawn until bbolt bore so many in which nothing is found. Bbolt has to bear each of these."""
    file, place = os.path.join(folder, "drawn.db"), os.path.join(folder, "tried")
    os.makedirs(place, exist_ok=True)
    drawn = borne = 0
    while borne < count:
        draw = random.Random(f"{seed} {drawn}")
        with open(file, "wb") as out:
            out.write(draw_sound(draw, draw.choice(KINDS)).data)
        drawn += 1
        if programs.found_for_bbolt(file):
            continue
        status = programs.bear(str(drawn), file, place)
        if status != 0:
            kept = shutil.copy(file, os.path.join(folder, f"fails-{seed}-{drawn - 1}.db"))
            sys.exit(f"{kept}: check --for-bbolt finds nothing, and bbolt ends with status {status}")
        borne += 1
    return drawn


def is_since(version):
    """Whether a version is of that release or a later one."""
    return tuple(map(int, version.split(".")[:2])) >= RELEASE


def borne_by(version):
    """The small files that bbolt of this version bears."""
    return BORNE_SINCE if is_since(version) else BORNE_BEFORE


def try_failing(programs, folder, version):
    """In each small file one thing is found, and bbolt of this version fails on it, but for those that it bears. Returns
    on how many it fails."""
    place, borne = os.path.join(folder, "tried"), borne_by(version)
    os.makedirs(place, exist_ok=True)
    for name, (text, line) in FAILING.items():
        file = os.path.join(folder, name + ".db")
        with open(file, "wb") as out:
            out.write(make(text))
        found = programs.found_for_bbolt(file)
        if found != [line]:
            sys.exit(f"{file}: found is {found}, and not {line}")
        if (programs.bear("1", file, place) == 0) != (name in borne):
            sys.exit(f"{file}: bbolt {version} {'fails on' if name in borne else 'bears'} it")
    return len(FAILING) - len(borne)

#!/usr/bin/env python3
"""Counts requests for memory where they tell how much work a command does, for `make work`.

    count_requests.py PROGRAM LIBRARY

LIBRARY refuses requests (tools/refuse). The status is 1 if a count isn't as it has to be:

- A check asks for memory as often as a file is deep, and so does a walk of it. If a deep bucket is put beside a small
  one, the keys of the small one take more requests by the check alone, and the list of its part must take exactly as
  many more. The list of everything takes more than that, and so would a list of a part that also walked the whole file.
- A table of pages has a byte for each page. In a file of 70,001 pages only FILE, tables and the buffer of OUT are
  requests for so many bytes. Of a sound file each command makes one table, when it checks the file. Of a damaged one it
  makes as many as it walks over ways, and one to find leaves if the root page is lost; however many items there are."""

import os
import subprocess
import sys
import tempfile

from draft import make

SHALLOW, DEEP = 1, 200
MOST_REQUESTS = 1 << 14
PAGES = 70001
# How many tables each command makes, of a file with a lost leaf and of one whose root page is lost. A search for what is
# lost and found walks twice, first to test the trees; to return the members of a damaged file takes one walk more.
TABLES = {
    "check FILE": (1, 1),
    "check FILE --all": (1, 1),
    "states FILE": (1, 1),
    "list FILE --recover": (1, 1),
    "get FILE 00000 --recover": (1, 1),
    "keys FILE 00000 --recover": (1, 1),
    "buckets FILE --recover": (1, 1),
    "compact FILE --recover -o OUT": (1, 1),
    "compact FILE --recover --for-bbolt -o OUT": (1, 1),
    "check FILE --lost-and-found": (2, 3),
    "list FILE --lost-and-found": (3, 3),
    "compact FILE --lost-and-found -o OUT": (3, 3),
    "compact FILE --lost-and-found --for-bbolt -o OUT": (3, 3),
}


# Those that read a sound file.
READERS = [
    "check FILE",
    "check FILE --all",
    "pages FILE",
    "keys FILE a",
    "buckets FILE --sizes",
    "stats FILE",
    "list FILE",
    "list FILE a",
    "list FILE --lost-and-found",
    "compact FILE --for-bbolt -o OUT",
    "compact FILE --lost-and-found -o OUT",
]


def nested(depth):
    """A file with the small bucket `a` and, beside it, the bucket `b` with buckets to this depth."""
    last = 4 + depth
    leaves = [f"leaf {number} b>{number + 1}/0" for number in range(4, last)]
    lines = [f"meta mark={last + 1}", f"pages {last + 1}", "inline 0 k=v", "leaf 3 a@0 b>4/0", *leaves, f"leaf {last} k=v"]
    return make("\n".join(lines))


def damaged(root):
    """A file of many pages. Below a branch two leaves are kept, and one is lost; of another leaf nothing leads to it."""
    lines = [
        f"meta page_size=1024 root={root} mark={PAGES}",
        "size 1024",
        f"pages {PAGES}",
        "branch 3 00000>4 00010>5 00020>6",
        "leaf 4 0..9=v",
        "leaf 6 20..29=v",
        "leaf 7 0..9=v",
    ]
    return make("\n".join(lines))


def sound():
    """A file of as many pages, without a freelist, with buckets on pages of their own."""
    lines = [f"meta page_size=1024 mark={PAGES} freelist={2**64 - 1}", "size 1024", f"pages {PAGES}", "leaf 3 a>4/0 b>5/0 c>6/0"]
    return make("\n".join([*lines, *(f"leaf {page} 0..9=v" for page in (4, 5, 6))]))


class Counted:
    """A file in a folder, on which the program's requests for at least so many bytes are counted."""

    def __init__(self, program, library, folder, file, least=0):
        self.program, self.folder = program, folder
        self.mark = os.path.join(folder, "mark")
        self.refusal = {"LD_PRELOAD": library, "REFUSED_CALL": "memory", "REFUSED_LEAST": str(least), "REFUSED_MARK": self.mark}
        with open(os.path.join(folder, "FILE"), "wb") as to:
            to.write(file)

    def reaches(self, words, number):
        """Whether a command makes as many requests. The last of them is refused."""
        out = os.path.join(self.folder, "OUT")
        refusal = {**self.refusal, "REFUSED_NUMBER": str(number)}
        subprocess.run([self.program, *words.split()], cwd=self.folder, capture_output=True, timeout=60, env=refusal)
        is_reached = os.path.exists(self.mark)
        for made in (self.mark, out):
            if os.path.exists(made):
                os.remove(made)
        return is_reached

    def requests(self, words):
        """How many requests a command makes: the least number of which one more isn't reached."""
        low, high = 0, 1
        while high < MOST_REQUESTS and self.reaches(words, high):
            low, high = high, 2 * high
        while low + 1 < high:
            middle = (low + high) // 2
            low, high = (middle, high) if self.reaches(words, middle) else (low, middle)
        return low


def requests_beside(program, library, depth):
    """How many requests the keys of `a`, the list of `a` and the list of everything make on such a file."""
    with tempfile.TemporaryDirectory() as folder:
        counted = Counted(program, library, folder, nested(depth))
        return [counted.requests(words) for words in ("keys FILE a", "list FILE a", "list FILE")]


def reads_only_its_part(program, library):
    shallow = requests_beside(program, library, SHALLOW)
    deep = requests_beside(program, library, DEEP)
    for depth, (keys, part, whole) in [(SHALLOW, shallow), (DEEP, deep)]:
        print(f"beside {depth} nested buckets, requests for keys: {keys}, for a part: {part}, for everything: {whole}")
    keys, part, whole = (after - before for before, after in zip(shallow, deep))
    return keys == part < whole


def tables(program, library, file, commands):
    """How many tables each command makes of a file."""
    with tempfile.TemporaryDirectory() as folder:
        counted = Counted(program, library, folder, file, PAGES)
        made = {words: counted.requests(words) for words in commands}
    # (a check makes one table, so its other requests are for FILE; OUT has a buffer)
    of_file = made["check FILE"] - 1
    return {words: count - of_file - words.endswith("OUT") for words, count in made.items()}


def makes_no_table_too_many(program, library):
    kept, lost = (tables(program, library, damaged(root), TABLES) for root in (3, 5))
    made = {words: (kept[words], lost[words]) for words in TABLES}
    for words, counts in made.items():
        print(f"tables of {words}, damaged: {counts}, wanted {TABLES[words]}")
    whole = tables(program, library, sound(), READERS)
    for words, count in whole.items():
        print(f"tables of {words}, sound: {count}, wanted 1")
    return made == TABLES and set(whole.values()) == {1}


def main():
    program, library = (os.path.abspath(it) for it in sys.argv[1:])
    is_good = reads_only_its_part(program, library)
    is_good = makes_no_table_too_many(program, library) and is_good
    sys.exit(0 if is_good else 1)


if __name__ == "__main__":
    main()

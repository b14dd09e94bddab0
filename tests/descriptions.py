"""The files of test cases, each described once.

A block `file NAME` or `text NAME` with further lines describes a file, and gives it this name in its file of test
cases. Later in it, a block of this line alone is the same file again. What several files of test cases use is described
in cases/shared.files. The further lines may begin with `like NAME`, which stands for the lines of another description:
so a damaged file is a sound one and its damage."""

import os

from blocks import blocks_of, parted
from words import halves

SHARED = os.path.join(os.path.dirname(os.path.abspath(__file__)), "cases", "shared.files")


class Misnamed(Exception):
    """A name that has no description or two, or a description that has two names."""


class Descriptions:
    """What describes the files of a run: those that are shared, and those of one file of test cases after the other."""

    def __init__(self):
        self.places = {}
        self.shared = {}
        self.begin(os.path.relpath(SHARED))
        for block in blocks_of(SHARED):
            _, head, lines = parted(block)
            if head:
                self.lines_of(head, lines)
        self.shared = self.own

    def begin(self, place):
        """Begins a file of test cases, in which only the names of shared files are known."""
        self.place = place
        self.own = dict(self.shared)

    def lines_of(self, head, lines):
        """The lines that describe the file of a block: its own or, if it has none, the earlier ones of its name."""
        if not lines:
            return self.known(head)
        kind, _ = halves(head, " ")
        first, name = halves(lines[0], " ")
        whole = [*self.known(f"{kind} {name}"), *lines[1:]] if first == "like" else lines
        if head in self.own:
            raise Misnamed(f"`{head}` is described already: this line is enough, or this file needs another name")
        if (kind, *whole) in self.places:
            raise Misnamed("`{}` in {} is the same file: it is described once, for several in shared.files".format(*self.places[kind, *whole]))
        self.places[kind, *whole] = head, self.place
        self.own[head] = whole
        return whole

    def known(self, head):
        if head not in self.own:
            raise Misnamed(f"no lines above and none in {os.path.relpath(SHARED)} describe `{head}`")
        return self.own[head]

"""The blocks of lines of a file of test cases."""

from itertools import takewhile


def blocks_of(path):
    """The blocks of a file, which have an empty line between."""
    with open(path, encoding="utf-8", newline="\n") as it:
        return it.read().rstrip("\n").split("\n\n")


def parted(block):
    """The comment of a block, its first other line, and the lines after that."""
    lines = block.split("\n")
    comment = [*takewhile(lambda line: line.startswith("#"), lines)]
    head, *others = lines[len(comment) :] or [""]
    return "\n".join(comment), head, others

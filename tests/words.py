"""Words of test cases, and the bytes that they stand for."""

import re


class Unread(Exception):
    """A word or a line that can't be read."""


def halves(text, mark):
    """A text before and after the first of these characters; without it, all of the text and nothing."""
    before, _, after = text.partition(mark)
    return before, after


def text_bytes(text):
    r"""The bytes of a text, in which \x and two digits stand for a byte."""
    first, *pieces = text.split("\\")
    escapes = [re.fullmatch(r"x([0-9a-f]{2})(.*)", piece, re.S) for piece in pieces]
    if not all(escapes):
        raise Unread(text)
    return first.encode() + b"".join(bytes.fromhex(it[1]) + it[2].encode() for it in escapes)


def bytes_of(word):
    """The bytes of a word: those of its text, repeated as often as the number after a `*` says. `''` has no bytes."""
    if word == "''":
        return b""
    text, mark, count = word.partition("*")
    return text_bytes(text) * (int(count) if mark else 1)


def path_of(word):
    """The keys of a path, which are separated by slashes; `.` has none."""
    return [] if word == "." else [bytes_of(part) for part in word.split("/")]


def numbers_of(words):
    """The numbers of words such as `4`, `7-9`, `4-10/2`, which is each second one, and `4-10/2*3`, which is each thrice."""
    for word in words:
        found = re.fullmatch(r"(\d+)(?:-(\d+)(?:/(\d+))?)?(?:\*(\d+))?", word)
        if found is None:
            raise Unread(word)
        first, last, step, times = found.groups()
        for number in range(int(first), int(last or first) + 1, int(step or 1)):
            yield from [number] * int(times or 1)

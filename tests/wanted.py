r"""What a test case requires.

| line | what is required |
|---|---|
| `> TEXT`, `! TEXT` | a line of standard output, or of standard error |
| `>- TEXT` | a text on standard output without a line feed |
| `>* WORD ..` | a line of words, each of which may repeat its text, with nothing between |
| `>> FIRST LAST` | a line for each of these numbers |
| `># FIRST LAST TEXT\|TEXT ..` | the same with a text, of these in turn, in which `#` is the number |
| `>x FIRST LAST BEFORE AFTER` | a line for each with five digits in hexadecimal, between two texts |
| `>..`, `!..` | any lines |
| `= STATUS` | the status, if it isn't 0; a word after it says why |
| `+ COPY` | what the copy must be: `FILE` itself, the file of a name (descriptions.py), or a `new` one, of which the next test cases are |

In a TEXT, \x and two digits stand for a byte, and `{version}` for the program's version. Without a line `+` there is no
copy."""

import os
import re

from words import Unread, bytes_of, halves, text_bytes

# Where any lines may be. No text of a test case has it.
GAP = b"\0..\0"


def version():
    """The version that the sources have."""
    top = os.path.dirname(os.path.dirname(os.path.abspath(__file__)))
    with open(f"{top}/crates/bolt_job/src/command_line.rt", encoding="utf-8") as file:
        return re.search(r'^const VERSION: &str = "(.*)";$', file.read(), re.M)[1]


VERSION = version()


class Wanted:
    """What a run must write, its status, and what its copy must be."""

    def __init__(self, lines):
        self.out, self.err, self.status, self.copy = b"", b"", 0, ""
        for line in lines:
            self.take(*halves(line.replace("{version}", VERSION), " "))

    def take(self, mark, text):
        match mark:
            case ">":
                self.out += text_bytes(text) + b"\n"
            case ">-":
                self.out += text_bytes(text)
            case ">*":
                self.out += b"".join(bytes_of(word) for word in text.split()) + b"\n"
            case ">>":
                first, last = text.split()
                self.out += b"".join(b"%d\n" % n for n in range(int(first), int(last) + 1))
            case ">#":
                self.out += texts_in_turn(*text.split(" ", 2))
            case ">x":
                self.out += digits_between(*text.split(" ", 3))
            case "!":
                self.err += text_bytes(text) + b"\n"
            case ">..":
                self.out += GAP
            case "!..":
                self.err += GAP
            case "=":
                self.status = int(halves(text, " ")[0])
            case "+":
                self.copy = text
            case _:
                raise Unread(mark)

    def is_met(self, out, err, status):
        return fits(out, self.out) and fits(err, self.err) and status == self.status


def fits(text, wanted):
    """Whether a text is what is wanted of it."""
    if GAP not in wanted:
        return text == wanted
    parts = (re.escape(part) for part in wanted.split(GAP))
    return re.fullmatch(b"(?:.*\n)*".join(parts), text) is not None


def texts_in_turn(first, last, text):
    """A line for each number: the next text, with the number in the place of each `#`."""
    texts = text.split("|")
    numbers = range(int(first), int(last) + 1)
    return b"".join(text_bytes(texts[i % len(texts)].replace("#", str(n))) + b"\n" for i, n in enumerate(numbers))


def digits_between(first, last, before="", after=""):
    """A line for each number: its five digits in hexadecimal, with a text before and one after."""
    before, after = text_bytes(before), text_bytes(after)
    lines = [before + (b"%05d" % n).hex().encode() + after for n in range(int(first), int(last) + 1)]
    return b"".join(line + b"\n" for line in lines)

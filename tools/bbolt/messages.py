"""Has bbolt print each message that docs/GUIDE.md explains, for compare.py: a small file makes it."""

import os
import subprocess
import sys

HERE = os.path.dirname(os.path.abspath(__file__))
# (Both of the last have a module `words`: that of the tests is meant.)
sys.path += [os.path.join(HERE, *names) for names in (("..", "format"), ("..", "..", "tests"), ("..", "usage"))]

from draft import make  # noqa: E402
from guide import MESSAGES_BY_BBOLT, refuse_unknown, text_pattern  # noqa: E402
from random_files import is_since  # noqa: E402

ONE_BUCKET = "meta mark=6\npages 6\nleaf 3 b>4/0\nleaf 4 k=v\n"
SECONDS = 20
# bbolt finds the pages that can be reached in one thread and panics in another, which may come too late.
TRIES = 20
ALL, BEFORE, SINCE = (False, True), (False,), (True,)
# Of each message: the file, the command of main.go that bbolt prints it at, and whether bbolt before and since a release
# does.
MADE = {
    "invalid database": (ONE_BUCKET + "at 16 \\x00\nat 4112 \\x00", "check", ALL),
    "checksum error": (ONE_BUCKET + "at 32 \\x09\nat 4128 \\x09", "check", BEFORE),
    "version mismatch": (ONE_BUCKET + "at 20 \\x03\nat 4116 \\x03", "check", BEFORE),
    "file size too small": (ONE_BUCKET + "cut 4096", "check", ALL),
    "page N already freed": (ONE_BUCKET + "free 2 4", "empty first", ALL),
    "invalid page type": (ONE_BUCKET + "free 4 5", "get FILE b k", ALL),
    "Page expected to be: N, but self identifies as M": (ONE_BUCKET + "zero 4", "get FILE b k", SINCE),
    "unexpected fault address": (ONE_BUCKET + "cut 16384", "get FILE b k", ALL),
    "SIGBUS": (ONE_BUCKET + "cut 16384", "get FILE b k", ALL),
    "parent must have at least 2 children": (
        "meta mark=6\npages 6\nleaf 3 b>4/0\nbranch 4 k>5\nleaf 5 k=v l=w",
        "empty first",
        ALL,
    ),
    "failed to get all reachable pages": (
        "meta mark=6 freelist=18446744073709551615\npages 6\nleaf 3 b>4/0 c>4/0\nleaf 4 k=v",
        "pages",
        ALL,
    ),
}


def printed(bbolt, command, file):
    """What bbolt prints, on both streams, of a file. Its name stands last, if the command doesn't say where."""
    words = [file if word == "FILE" else word for word in command.split()]
    words += [] if "FILE" in command else [file]
    run = subprocess.run(
        [bbolt, *words], stdout=subprocess.PIPE, stderr=subprocess.STDOUT, timeout=SECONDS, check=False
    )
    return run.stdout.decode(errors="replace")


def try_messages(bbolt, folder, version):
    """Has bbolt of this version print each message that it has. Returns how many."""
    refuse_unknown(MADE, MESSAGES_BY_BBOLT)
    refuse_unknown(MESSAGES_BY_BBOLT, MADE)
    count = 0
    for message, (text, command, versions) in MADE.items():
        if is_since(version) not in versions:
            continue
        file = os.path.join(folder, "message.db")
        with open(file, "wb") as out:
            out.write(make(text))
        if not any(text_pattern(message).search(printed(bbolt, command, file)) for _ in range(TRIES)):
            sys.exit(f"{file}: bbolt {version} prints no {message!r} at {command}, {TRIES} times")
        count += 1
    return count

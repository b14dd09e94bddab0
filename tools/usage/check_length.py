#!/usr/bin/env python3
"""Tests that docs/GUIDE.md stays short, for `make manual`: the whole, and its first page, which somebody reads whose file
is damaged.

    check_length.py

Words are what `wc -w` counts. The status is 1 if there are too many words, or too many links on that page."""

import re
import sys

from damages import DAMAGED
from guide import GUIDE, read_guide

MOST_WORDS = 6_000
# Those of the first page, without its heading.
PAGE_WORDS, PAGE_LINKS = 450, 8


def first_page(text):
    return re.search(rf"(?ms)^## {DAMAGED}\n(.*?)^#", text)[1]


def main():
    text = read_guide()
    page = first_page(text)
    counts = [
        (f"{GUIDE}: words", len(text.split()), MOST_WORDS),
        (f'"{DAMAGED}": words', len(page.split()), PAGE_WORDS),
        (f'"{DAMAGED}": links', len(re.findall(r"\]\(", page)), PAGE_LINKS),
    ]
    for what, count, most in counts:
        print(f"{what}: {count}, at most {most}")
    return any(count > most for _, count, most in counts)


if __name__ == "__main__":
    sys.exit(main())

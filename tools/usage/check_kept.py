#!/usr/bin/env python3
"""Tests that documents keep the sentences that somebody needs, for `make manual`: those of a file as kept.txt.

    check_kept.py FILE

A line is printed for each that its document lacks. The status is 1 then, and if there is none to look for."""

import sys


def lines_of(name):
    with open(name, encoding="utf-8") as file:
        return [it for it in file.read().splitlines() if it and not it.startswith("#")]


def main(name):
    wanted = [it.split(": ", 1) for it in lines_of(name)]
    lacking = [f"{document} lacks: {sentence}" for document, sentence in wanted if sentence not in " ".join(lines_of(document))]
    print("\n".join(lacking), end="\n" if lacking else "")
    return 1 if lacking or not wanted else 0


if __name__ == "__main__":
    sys.exit(main(*sys.argv[1:]))

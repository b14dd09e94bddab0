#!/usr/bin/env python3
"""Shows that the comparisons find wrong output, for `make fuzz-wrong`.

    try_wrong.py PROGRAM

Each alteration below is between the program and the comparisons, and makes one kind of output wrong: one for each kind
of comparison. The comparisons must find it on one of the first files of a seed. The status is 1 if they don't find one
of them on any file.
"""

import os
import re
import sys
import tempfile

from fuzz import compare_one
from program import FAILURES, Program

SEED = 1
MOST_FILES = 200
ALTERATIONS = []


class Wrong(Program):
    """The program, with its output altered."""

    def __init__(self, path, alter):
        super().__init__(path)
        self.alter = alter

    def ask(self, words):
        result = super().ask(words)
        self.alter(words, result)
        return result


def alters(command, *options, status=0):
    """Registers an alteration of the results of this command, with these options and this status."""

    def register(alter):
        def alter_meant(words, result):
            is_meant = words[0] == command and all(option in words for option in options)
            if is_meant and result.status == status:
                alter(words, result)

        ALTERATIONS.append((alter.__doc__, alter_meant))
        return alter

    return register


def without_last(text):
    return b"".join(text.splitlines(keepends=True)[:-1])


def change_last_byte(path):
    with open(path, "r+b") as file:
        file.seek(-1, os.SEEK_END)
        last = file.read(1)[0]
        file.seek(-1, os.SEEK_END)
        file.write(bytes([last ^ 1]))


def out_of(words):
    """The OUT of a run of `compact` or `load`."""
    return words[words.index("-o") + 1]


@alters("list")
def change_value(words, result):
    """sound files: list shows another value"""
    result.out = re.sub(rb"= [0-9a-f]{2}", b"= 00", result.out, count=1)


@alters("check", status=1)
def accept_all(words, result):
    """refusals: check accepts every file"""
    result.status, result.out, result.err = 0, b"OK\n", b""


@alters("etcd-check", status=1)
def miss_bucket(words, result):
    """stores: etcd-check reports a line less"""
    result.out = b"".join(result.out.splitlines(keepends=True)[1:])


@alters("page", status=1)
def report_other_fault(words, result):
    """pages: page reports another fault"""
    result.err = re.sub(rb"(page \d+): .*", rb"\1: cut off", result.err)


@alters("pages", "--map")
def show_leaf(words, result):
    """maps: pages --map shows a branch as a leaf"""
    result.out = result.out.replace(b"B", b"L", 1)


@alters("buckets", "--sizes")
def drop_size(words, result):
    """buckets: buckets --sizes drops its last bucket"""
    result.out = without_last(result.out)


@alters("keys", "--prefix")
def drop_key(words, result):
    """options: keys --prefix drops its last key"""
    result.out = without_last(result.out)


@alters("list", "json")
def show_hex(words, result):
    """forms: list --form json shows a value in hexadecimal as a string"""
    result.out = re.sub(rb'"value":\{"hex":("[0-9a-f]*")\}', rb'"value":\1', result.out)


@alters("compact")
def change_copy(words, result):
    """copies: compact puts another last byte"""
    change_last_byte(out_of(words))


@alters("load", status=1)
def report_other_line(words, result):
    """listings read back: load reports another line"""
    result.err = re.sub(rb"line \d+", b"line 999", result.err)


@alters("compact", "--recover", status=1)
def report_less(words, result):
    """recoveries: compact --recover reports a loss less"""
    result.out = b"".join(result.out.splitlines(keepends=True)[1:])


@alters("check", "--all", status=1)
def drop_name(words, result):
    """losses: check --all drops the text of a path or a key"""
    result.out = re.sub(rb"(; lost: .*?[0-9a-f]) \(.*?\)", rb"\1", result.out, count=1)


@alters("check", "--lost-and-found", status=1)
def show_other_name(words, result):
    """found pages: check --lost-and-found shows another text of a key"""
    result.out = re.sub(rb"(; found: .*?[0-9a-f]) \(.", rb"\1 (~", result.out, count=1)


@alters("keys", "--recover", status=1)
def drop_recovered_key(words, result):
    """recovered buckets: keys --recover drops its last key"""
    result.out = without_last(result.out)


@alters("check", "--etcd-snapshot", status=1)
def accept_hash(words, result):
    """snapshots: check --etcd-snapshot accepts every hash"""
    result.out = re.sub(rb"snapshot hash .*\n", b"", result.out)


def finds(path, alter, folder):
    """The number of the first file on which the comparisons find this alteration, and what they say."""
    program = Wrong(path, alter)
    for number in range(MOST_FILES):
        try:
            compare_one(program, SEED, number, folder)
        except FAILURES as difference:
            return number, repr(difference)
    return None, "not found"


def main():
    path = os.path.abspath(sys.argv[1])
    missed = 0
    with tempfile.TemporaryDirectory() as folder:
        for title, alter in ALTERATIONS:
            number, said = finds(path, alter, folder)
            missed += number is None
            print(f"{title}: file {number}: {said[:100]}", flush=True)
    print(f"{len(ALTERATIONS)} alterations, {missed} not found")
    sys.exit(0 if missed == 0 else 1)


if __name__ == "__main__":
    main()

#!/usr/bin/env python3
"""Tries what is saved of sound files of which a page or the end is lost, for `make examples`.

    try_lost_pages.py [--bbolt BBOLT] PROGRAM FILE..

Each page of each FILE but the metas is overwritten with zeros in turn, and each FILE is cut off at each
page. Of each such file:

- the copy with `--lost-and-found` is sound, and lists what `list --lost-and-found` prints;
- without the bucket `lost+found` that is what `list --recover` prints;
- `check --lost-and-found` names the pages that have a bucket there;
- BBOLT, the program of tools/bbolt, accepts the copy and lists the same.

Or all of these refuse the file. If a branch is zeroed, and a freelist was written, the found pages are
exactly the leaves that it led to, and each entry that recovery has lost is in `lost+found`. (No branch
but a root page of these files has leaves with buckets of more pages.)
"""

import argparse
import os
import re
import subprocess
import sys
import tempfile

FOUND = b"lost+found".hex().encode()
PAGE = re.compile(rb"%b/([0-9a-f]{32}) bucket 0" % FOUND)


class Tried:
    """A damaged file, and what the program says of it, and bbolt of its copy."""

    def __init__(self, program, bbolt, data, folder):
        self.program = program
        self.bbolt = bbolt
        self.path = os.path.join(folder, "damaged.db")
        self.copy = os.path.join(folder, "copy.db")
        with open(self.path, "wb") as file:
            file.write(data)

    def run(self, *words):
        return subprocess.run([self.program, *words], capture_output=True, check=False)

    def lines(self, *words):
        return self.run(*words).stdout.splitlines()

    def compare(self):
        """The numbers of the found pages, and the lines of the joined listing."""
        if os.path.exists(self.copy):
            os.remove(self.copy)
        copied = self.run("compact", "--lost-and-found", "-o", self.copy, self.path)
        listed = self.run("list", "--lost-and-found", self.path)
        if copied.stderr:
            want(listed.stdout == b"" and listed.stderr == copied.stderr, self.path, "is refused in two ways")
            want(os.path.getsize(self.copy) == 0, self.path, "is refused, but copied")
            return [], []
        joined = listed.stdout.splitlines()
        want(self.run("check", self.copy).stdout == b"OK\n", self.path, "has a copy that isn't sound")
        want(self.run("list", self.copy).stdout == listed.stdout, self.path, "has a copy that lists something else")
        if self.bbolt:
            read = [subprocess.run([self.bbolt, word, self.copy], capture_output=True, check=False) for word in ("check", "list")]
            want(read[0].returncode == 0, self.path, "has a copy that bbolt refuses")
            want(read[1].stdout == listed.stdout, self.path, "has a copy of which bbolt lists something else")
        own = [line for line in joined if not line.startswith(FOUND)]
        want(own == self.lines("list", "--recover", self.path), self.path, "recovers something else")
        buckets = [int(bytes.fromhex(m.group(1).decode())) for line in joined if (m := PAGE.fullmatch(line))]
        check = self.run("check", "--lost-and-found", self.path).stdout
        named = [int(n) for n in re.findall(rb"^page (\d+): nothing leads to it", check, re.M)]
        want(named == buckets, self.path, "names", named, "and lists", buckets)
        return named, joined


def want(holds, *words):
    if not holds:
        sys.exit(" ".join(map(str, words)))


def leaves_below(program, path, number, root):
    """The leaves that only this page leads to, if it is a branch: all leaves in use below the root page, or its
    children below another."""
    rows = [line.split() for line in subprocess.check_output([program, "pages", path], text=True).splitlines()]
    used = {int(row[0]): row[1] for row in rows if row[0].isdigit()}
    if used.get(number) != "branch":
        return []
    if number == root:
        return sorted(page for page, kind in used.items() if kind == "leaf")
    text = subprocess.check_output([program, "page", path, str(number)], text=True)
    return sorted(int(line.rsplit(" ", 1)[1]) for line in text.splitlines()[4:])


def try_file(program, bbolt, path, folder):
    with open(path, "rb") as file:
        data = file.read()
    info = dict(line.rsplit(" ", 1) for line in subprocess.check_output([program, "info", path], text=True).splitlines())
    size, tried, exact = int(info["page size"]), 0, 0
    sound = subprocess.check_output([program, "list", path]).splitlines()
    for number in range(2, len(data) // size):
        damaged = data[: number * size] + bytes(size) + data[(number + 1) * size :]
        found, joined = Tried(program, bbolt, damaged, folder).compare()
        leaves = leaves_below(program, path, number, int(info["root"]))
        if leaves and info["freelist"] != "none":
            want(found == leaves, path, "without page", number, "has", found, "and not", leaves)
            saved = {line.rsplit(b"/", 1)[-1] for line in joined}
            gone = [line for line in sound if line.rsplit(b"/", 1)[-1] not in saved]
            want(not gone, path, "without page", number, "has not found", gone[:1])
            exact += 1
        Tried(program, bbolt, data[: number * size], folder).compare()
        tried += 2
    return tried, exact


def main():
    parser = argparse.ArgumentParser()
    parser.add_argument("program")
    parser.add_argument("files", nargs="+")
    parser.add_argument("--bbolt")
    words = parser.parse_args()
    all_exact = 0
    with tempfile.TemporaryDirectory() as folder:
        for path in words.files:
            tried, exact = try_file(words.program, words.bbolt, path, folder)
            print(f"{path}: {tried} damaged files, and what is found of each; of {exact} exactly the leaves of a branch")
            all_exact += exact
    want(all_exact > 0, "no file had a branch whose leaves are known")


if __name__ == "__main__":
    main()

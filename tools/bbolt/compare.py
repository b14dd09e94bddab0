"""Compares the program's output with that of bbolt's own library.

    compare.py PROGRAM BBOLT FOLDER --version V [--rounds N] [--random N] [--seed N] [--guide DOCUMENT] FILE ..

BBOLT is the program built from main.go beside this file, with the library of this version. The files compared are each FILE and some
that bbolt makes in FOLDER. Of each: bbolt accepts it where the program does, and both list the same
and count the same pages; of its compact copies in both layouts, and of what is loaded of the lines
that bbolt's cursor prints, too. Then bbolt makes random transactions, N rounds of them, on the files
that it made, on a copy of each for bbolt and on what is loaded of it, and both programs accept the
file after each round. Last, bbolt has to stop with a panic on a copy that has a
branch of one child, and never on the copy of the same file for bbolt: without the first, nothing
would show that these transactions can find such a branch. It has to do the same when it deletes every
key. From each copy that the commands of DOCUMENT made, bbolt deletes every key: each was made for it.

Each file in which `check --for-bbolt` finds nothing, bbolt empties key by key, and copies by its own compact. It finds
nothing in what bbolt wrote. In N random sound files (--random) it finds nothing either: bbolt drains each in four orders,
fills it, compacts it and backs it up, and its own check and the content are compared after each step, and when the file
is opened again. For each of the ten things that are found there is a small file that makes bbolt fail, of this or another
version, and for each message of bbolt that docs/GUIDE.md explains one of which this version prints it, if it has it.
"""

import argparse
import os
import re
import shutil
import subprocess
import sys

from messages import try_messages
from random_files import try_failing, try_random

KINDS = ["wide", "nested", "inline", "long", "churn"]
COUNTED = [b"keys", b"branch pages", b"branch overflow", b"leaf pages", b"leaf overflow"]
PANIC = 3
FOR_BBOLT = "--for-bbolt"
ONE_CHILD = b": branch of one child"
COMPACTED_AT_ONCE = "65536"
STEPS = "60"
RUNS = 12


def want(holds, *what):
    """Ends the run if something doesn't hold."""
    if not holds:
        sys.exit(" ".join(map(str, what)))


def ended(*words):
    """The status and the output of a program."""
    run = subprocess.run(words, stdout=subprocess.PIPE, stderr=subprocess.DEVNULL, check=False)
    return run.returncode, run.stdout


class Programs:
    """The program, and bbolt's."""

    def __init__(self, program, bbolt):
        self.program = program
        self.bbolt = bbolt

    def both(self, command, file):
        """What both print for a file, and whether both accept it."""
        ours, theirs = ended(self.program, command, file), ended(self.bbolt, command, file)
        want((ours[0] == 0) == (theirs[0] == 0), file, command, "one of both fails:", ours[0], theirs[0])
        return ours[0] == 0, ours[1], theirs[1]

    def is_sound(self, file):
        """Whether both accept the file."""
        return self.both("check", file)[0]

    def compare(self, file):
        """Compares what the file holds, and how many pages bbolt counts."""
        _, ours, theirs = self.both("list", file)
        want(ours == theirs, file, "bbolt lists something else")
        _, ours, theirs = self.both("stats", file)
        counted = [line for line in ours.splitlines() if line.rsplit(b" ", 1)[0] in COUNTED]
        want(counted == theirs.splitlines(), file, "bbolt counts other pages")

    def copy(self, file, out, *options):
        """A compact copy, with these options."""
        if os.path.exists(out):
            os.remove(out)
        want(ended(self.program, "compact", *options, "-o", out, file)[0] == 0, file, "isn't copied")
        return out

    def copy_for_bbolt(self, file, out):
        """A compact copy without a branch of one child."""
        copy = self.copy(file, out, FOR_BBOLT)
        want(self.lone_children(copy) == 0, file, "the copy for bbolt has a branch of one child")
        return copy

    def has_entries(self, file):
        """Whether bbolt's cursor finds anything. If not, there are no lines to load."""
        return ended(self.bbolt, "list", file)[1] != b""

    def load_for_bbolt(self, file, out):
        """A file for bbolt of the lines that bbolt's cursor prints of another one."""
        text = ended(self.bbolt, "list", file)[1]
        with open(out + ".list", "wb") as lines:
            lines.write(text)
        if os.path.exists(out):
            os.remove(out)
        want(ended(self.program, "load", FOR_BBOLT, "-o", out, out + ".list")[0] == 0, file, "isn't loaded")
        want(ended(self.program, "list", out)[1] == text, file, "is loaded as something else")
        want(self.lone_children(out) == 0, file, "what is loaded for bbolt has a branch of one child")
        return out

    def found_for_bbolt(self, file):
        """What `check --for-bbolt` finds in a sound file."""
        return [line for line in ended(self.program, "check", FOR_BBOLT, file)[1].splitlines() if b": " in line]

    def lone_children(self, file):
        """How many branch pages have one child."""
        rows = [line.split() for line in ended(self.program, "pages", file)[1].splitlines()]
        count = sum(row[1:3] == [b"branch", b"1"] for row in rows)
        found = sum(line.endswith(ONE_CHILD) for line in self.found_for_bbolt(file))
        want(count == found, file, "branches of one child:", count, "and not", found)
        return count

    def compact(self, file, folder):
        """The status of bbolt's own compact."""
        out = os.path.join(folder, "compacted.db")
        if os.path.exists(out):
            os.remove(out)
        return ended(self.bbolt, "compact", file, out, COMPACTED_AT_ONCE)[0]

    def write_if_it_can(self, file, folder):
        """If nothing is found in a file that bbolt fails on, it deletes every key, and compacts the file."""
        if self.found_for_bbolt(file):
            return
        want(self.empty(file, folder) == 0, file, "bbolt can't delete every key")
        want(self.compact(file, folder) == 0, file, "bbolt can't compact it")

    def bear(self, seed, file, folder):
        """Bbolt does everything with copies of the file: its status."""
        return ended(self.bbolt, "try", seed, file, folder)[0]

    def change(self, file, seed):
        """Random transactions by bbolt: its status."""
        return ended(self.bbolt, "change", str(seed), STEPS, file)[0]

    def empty(self, file, folder):
        """Bbolt deletes every key of a copy of the file, from the front and from the end: the greater status."""
        emptied = os.path.join(folder, "emptied.db")
        statuses = [ended(self.bbolt, "empty", order, shutil.copy(file, emptied))[0] for order in ("first", "last")]
        return max(statuses)


def compare_file(programs, file, folder):
    """Compares a file and its copies."""
    if not programs.is_sound(file):
        return
    programs.compare(file)
    programs.write_if_it_can(file, folder)
    out = os.path.join(folder, "copy.db")
    copies = [programs.copy, programs.copy_for_bbolt]
    if programs.has_entries(file):
        copies.append(programs.load_for_bbolt)
    for copy in copies:
        want(programs.is_sound(copy(file, out)), file, "a copy isn't accepted")
        programs.compare(out)
        programs.write_if_it_can(out, folder)


def change_file(programs, file, rounds):
    """Has bbolt write into a file, and compares it after each round."""
    for seed in range(rounds):
        want(programs.change(file, seed) == 0, file, "bbolt fails at round", seed)
        want(programs.is_sound(file), file, "isn't accepted after round", seed)
        found = programs.found_for_bbolt(file)
        want(found == [], file, "was written by bbolt, and found is", found)
        programs.compare(file)


def panics(programs, copy, folder, seeds):
    """How often bbolt panics on a copy, by so many seeds."""
    changed = os.path.join(folder, "changed.db")
    count = 0
    for seed in range(seeds):
        shutil.copy(copy, changed)
        count += programs.change(changed, seed) == PANIC
    return count


def compare_panics(programs, file, folder):
    """How often bbolt panics on the plain copy of a file, which it never does on the copy for bbolt."""
    copy = programs.copy(file, os.path.join(folder, "copy.db"))
    want(programs.lone_children(copy) > 0, file, "the copy has no branch of one child")
    count = panics(programs, copy, folder, RUNS)
    want(count > 0, "bbolt writes into branches of one child without a panic")
    want(programs.empty(copy, folder) == PANIC, "bbolt deletes every key of a plain copy without a panic")
    copy = programs.copy_for_bbolt(file, copy)
    want(panics(programs, copy, folder, RUNS) == 0, file, "bbolt panics on the copy for bbolt")
    want(programs.empty(copy, folder) == 0, file, "bbolt can't delete every key of the copy for bbolt")
    return count


def empty_copies(programs, guide, folder):
    """How many copies the commands of a document made. Bbolt deletes every key of each."""
    with open(guide, encoding="utf-8") as document:
        made = re.findall(r"(?m)^ {4}\$ (?:.*\| )?luntsegi ((?:compact|load) .*?-o (out/\S+).*)", document.read())
    made = [(command, copy) for command, copy in made if os.path.exists(copy)]
    for command, copy in made:
        want("--for-bbolt" in command or "--etcd-snapshot" in command, command, "makes no copy for bbolt")
        want(programs.empty(copy, folder) == 0, copy, "bbolt can't delete every key")
    want(made, guide, "makes no copy")
    return len(made)


def main():
    """Compares all files."""
    parser = argparse.ArgumentParser()
    parser.add_argument("program", type=os.path.abspath)
    parser.add_argument("bbolt", type=os.path.abspath)
    parser.add_argument("folder")
    parser.add_argument("files", nargs="*")
    parser.add_argument("--version", required=True)
    parser.add_argument("--rounds", type=int, default=30)
    parser.add_argument("--random", type=int, default=300)
    parser.add_argument("--seed", type=int, default=1)
    parser.add_argument("--guide")
    words = parser.parse_args()
    programs = Programs(words.program, words.bbolt)
    os.makedirs(words.folder, exist_ok=True)
    made = [os.path.join(words.folder, kind + ".db") for kind in KINDS]
    for kind, file in zip(KINDS, made):
        if os.path.exists(file):
            os.remove(file)
        want(ended(words.bbolt, "make", kind, file)[0] == 0, "bbolt makes no file", kind)
    for file in words.files + made:
        compare_file(programs, file, words.folder)
    count = compare_panics(programs, made[KINDS.index("long")], words.folder)
    failing = try_failing(programs, words.folder, words.version)
    messages = try_messages(words.bbolt, words.folder, words.version)
    drawn = try_random(programs, words.folder, words.random, words.seed)
    for file in made:
        change_file(programs, programs.copy_for_bbolt(file, file + ".copy"), words.rounds)
        change_file(programs, programs.load_for_bbolt(file, file + ".loaded"), words.rounds)
        change_file(programs, file, words.rounds)
    emptied = empty_copies(programs, words.guide, words.folder) if words.guide else 0
    print(f"{len(words.files) + len(made)} files compared with bbolt; {len(made)}, their copies for "
          f"bbolt and what is loaded of them after each of {words.rounds} rounds of {STEPS} transactions; {count} of {RUNS} runs on a "
          f"branch of one child panic, and none on the copy for bbolt; it fails on {failing} small files that "
          f"check --for-bbolt finds, and bears {words.random} random ones of {drawn} in which it finds nothing; every key deleted "
          f"from {emptied} copies of the guide; {messages} messages that the guide explains are printed")


if __name__ == "__main__":
    main()

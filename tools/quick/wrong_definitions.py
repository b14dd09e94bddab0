#!/usr/bin/env python3
"""Tries whether a test case notices each text that the program prints, for `make wrong-definitions`.

    wrong_definitions.py FOLDER

A proof shows that the code prints what a definition says, and not that the definition says it right: a word that is wrong
in both is proved too. So each text of the sources gets a mark of its own, as if the definition had it. The program is
compiled into FOLDER without its proofs, and the test cases run once. A text is noticed if a case fails that prints its
mark, or if it is in the result of a call (tests/cases/call_*.cases), which isn't made here. Prints those that aren't, and
how many there are. The status is 1 then."""

import contextlib
import glob
import os
import re
import shutil
import sys
import tempfile

sys.path[:0] = ["tests", "tools/format"]

import run_cases  # noqa: E402
import wanted  # noqa: E402
from keep_tried import keep_tried  # noqa: E402

SOURCES = "crates/bolt_{}/src/**/*.rt"
CRATES = ("cli", "commands", "etcd", "job", "load", "report", "text")
# Bytes that are printed, and why a word of the command line is refused.
TEXT = re.compile(r'b"(?:[^"\\]|\\.)*[a-z]{2}(?:[^"\\]|\\.)*"|"bad (?:[^"\\]|\\.)*"')
# Bytes that are looked for: names of buckets and keys, and words that are read.
SOUGHT = re.compile(r"\.bucket\(b|meta_number\(|_with\(b|_prefix\(b|== b|^const |PutBack::new|^b\"\w+\",$")


def marked(text, number):
    """The text with a mark, after which nothing of it but a line feed or what closes a JSON name may come."""
    begin, end = re.fullmatch(r'(?s)(.*?)((?:\\n)?"|\\":"|":)', text).groups()
    return f"{begin}<{number}>{end}"


def mark_all(room):
    """Marks the texts of the crates in a folder. Returns where each is, by its mark."""
    places = {}
    for crate in CRATES:
        for name in sorted(glob.glob(os.path.join(room, SOURCES.format(crate)), recursive=True)):
            with open(name, encoding="utf-8") as file:
                lines = file.readlines()
            for row, line in enumerate(lines):
                if line.lstrip().startswith(("//", "ensures", "ghost")) or "codes " in line or SOUGHT.search(line.strip()):
                    continue

                def mark(match):
                    number = len(places) + 1
                    places[number] = f"{os.path.relpath(name, room)}:{row + 1}: {match[0]}"
                    return marked(match[0], number)

                lines[row] = TEXT.sub(mark, line)
            with open(name, "w", encoding="utf-8") as file:
                file.writelines(lines)
    return places


# No file that a machine can hold leads to these.
UNREACHED = "layout too large", "too many pages"


def is_in_a_call(place):
    """Whether the result of a call, or of none, has the text."""
    text = re.sub(r'.*?"|(?:\\n)?"$', "", place)
    results = [line for name in glob.glob("tests/cases/call_*.cases") for line in open(name, encoding="utf-8") if line[0] == ">"]
    return text in UNREACHED or any(text in line for line in results)


class Notes(run_cases.Bench):
    """A bench that tries command lines alone, and notes the marks in what is printed where a case fails."""

    noticed = set()

    def try_block(self, comment, head, lines):
        if head.split(" ")[0] in ("file", "text", "cut", "$", ""):
            try:
                self.take(head, lines)
            except run_cases.FAULTS:
                pass

    def compare(self, result, of_case):
        out, err, status, copy = result
        if not of_case.is_met(out, err, status):
            self.noticed.update(map(int, re.findall(rb"<(\d+)>", out + err)))
        if of_case.copy == "new":
            self.file = copy


def main():
    folder = os.path.abspath(sys.argv[1])
    with tempfile.TemporaryDirectory(prefix="luntsegi-marked-") as room:
        for name in ("crates", "tools", "tests"):
            shutil.copytree(name, os.path.join(room, name), ignore=shutil.ignore_patterns("out"))
        for name in ("crates.txt", "HANDLES"):
            shutil.copy(name, room)
        places = mark_all(room)
        os.chdir(room)
        program = keep_tried(folder)
        wanted.VERSION += " unproved"
        bench = Notes(program, "-")
        with contextlib.redirect_stdout(None):
            for name in sorted(glob.glob("tests/cases/*.cases")):
                bench.try_file(name)
        missed = [it for number, it in places.items() if number not in bench.noticed and not is_in_a_call(it)]
    print("".join(f"{it}\n" for it in missed), end="")
    print(f"{len(places)} texts, {len(missed)} that no test case notices")
    sys.exit(bool(missed) or not places)


if __name__ == "__main__":
    main()

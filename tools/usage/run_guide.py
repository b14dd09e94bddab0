#!/usr/bin/env python3
"""Runs the command lines of docs/GUIDE.md that have no `$ `, for `make examples`; `make etcd` runs those for a server.

    run_guide.py PROGRAM

The lines under a heading are run in order by one sh, in a fresh folder. FILE is a copy of an example there. `systemctl`
does nothing. A line must end with status 0 and print no error, if SECTIONS doesn't have a pattern for it. The commands
in sentences are run so, too, or NOT_RUN says why not. A line under another heading, a command in a sentence that no
table has, and what a table has but the guide doesn't, make the status 1."""

import os
import shutil
import sys
import tempfile

from damages import DAMAGED, DAMAGES
from guide import (
    BY_ETCD,
    GUIDE,
    MESSAGES_BY_BBOLT,
    MESSAGES_BY_ETCD,
    SPANS_BY_ETCD,
    Room,
    Section,
    WrongLine,
    add_programs,
    messages,
    plain_blocks,
    refuse_unknown,
    spans,
)

PAGE_BYTES = 4096
BLOBS_LOST = "page 2: wrong page number; lost: bucket 626c6f6273 \\(blobs\\)\n"
SECTIONS = {
    "Put a copy back into service": Section(
        "etcd.db",
        wanted={
            "luntsegi check --for-bbolt RESCUE/new.db": "0 OK\n$",
            "luntsegi etcd-check RESCUE/new.db": "0 OK\n$",
        },
        # A copy with a branch of one child, on which bbolt fails.
        before=[
            "mkdir RESCUE && cp FILE first.db && chmod 640 FILE && luntsegi list FILE > listing && echo 7a bucket 0 >> listing",
            "for key in 61 62 63; do echo 7a/$(printf $key%.0s $(seq 500)) = 78 >> listing; done",
            "luntsegi load --page-size 1024 -o RESCUE/plain.db listing",
            "! luntsegi check --for-bbolt RESCUE/plain.db",
        ],
        after=[
            "cmp FILE.damaged first.db",
            "luntsegi list FILE | cmp - listing",
            '[ "$(stat -c %a FILE)" = 640 ]',
        ],
    ),
    "Lost and found": Section(
        "nofreelist.db",
        lost_pages=(2,),
        state="4096:3",
        wanted={
            "luntsegi check --lost-and-found --assume-meta STATE FILE > RESCUE/found; head RESCUE/found": (
                f"0 {BLOBS_LOST}page 4: nothing leads to it; found: 2 entries"
            ),
            "luntsegi compact --lost-and-found --for-bbolt --assume-meta STATE -o RESCUE/found.db FILE": (
                f"1 {BLOBS_LOST}.*; found: .* bytes\n$"
            ),
        },
        before=["mkdir RESCUE"],
        after=[
            "luntsegi check --for-bbolt RESCUE/found.db | grep -x OK",
            "luntsegi buckets RESCUE/found.db lost+found | grep -x 0000000000000004",
        ],
    ),
    "What is in it?": Section(
        "app.db",
        wanted={
            "luntsegi list --form json FILE settings | jq 'select(has(\"value\")) | .value'": '0 ""\n"en"\n"light"\n$'
        },
    ),
    "Which bucket is big?": Section("etcd.db", wanted={"luntsegi stats --form json FILE | jq .leaf_used": r"0 \d+\n$"}),
}
# The same of the commands that are in sentences.
SENTENCES = Section(
    "etcd.db",
    wanted={
        "cp -a /var/lib/etcd RESCUE/etcd": "0 $",
        "ls -l FILE": "0 -.*etcd.db\n$",
        "luntsegi check --all FILE": "0 OK\n$",
        "luntsegi page FILE NUMBER": "0 page 5\ntype leaf\n",
        "printf blobs | od -An -v -tx1": "0  62 6c 6f 62 73\n$",
        "printf theme | od -An -v -tx1": "0  74 68 65 6d 65\n$",
    },
    before=["mkdir RESCUE"],
    after=["cmp FILE RESCUE/etcd/etcd.db"],
)
PART = "a part of a command line"
NOT_RUN = {
    "etcdctl snapshot restore": PART,
    "etcdctl snapshot save": PART,
    "etcdctl snapshot status": PART,
    "etcdctl put": PART,
    "etcdctl endpoint hashkv --rev 50 -w json": "no server has that file; `make etcd` compares such hashes",
    "etcdctl del": PART,
    "etcdutl snapshot restore": "it needs etcd 3.5",
    "grep -v '^7573657273[ /]'": PART,
    "sort -s -u -k 1,1": PART,
    "man luntsegi": "the page isn't installed; `make manual` lints it",
}


def copy_example(section, path):
    """Makes the file that a section is about."""
    shutil.copy(os.path.join("examples", section.example), path)
    with open(path, "r+b") as file:
        for page in section.lost_pages:
            file.seek(page * PAGE_BYTES)
            file.write(bytes(PAGE_BYTES))


def run_section(section, lines, program):
    """Runs the lines of a section, and what comes before and after them, in a fresh folder."""
    with tempfile.TemporaryDirectory() as folder:
        add_programs(os.path.join(folder, "programs"), program)
        os.mkdir(os.path.join(folder, "data"))
        file = os.path.join(folder, "data", section.example)
        copy_example(section, file)
        words = {
            "FILE": file,
            "RESCUE": os.path.join(folder, "rescue"),
            "STATE": section.state,
            "EXAMPLES": os.path.abspath("examples"),
            "NUMBER": "5",
            "/var/lib/etcd": os.path.dirname(file),
        }
        room = Room(folder, os.path.join(folder, "programs"), words)
        room.run([*section.before, *lines, *section.after], section.wanted)


def can_run(line):
    """Whether the line's programs are there. Only jq may be missing."""
    return "| jq " not in line or shutil.which("jq")


def parts():
    """Each section with its lines. The commands in sentences come last."""
    found, in_sentences = plain_blocks(), spans()
    refuse_difference("headings", [DAMAGED, *SECTIONS, *BY_ETCD], found)
    refuse_difference("messages", [*MESSAGES_BY_BBOLT, *MESSAGES_BY_ETCD], messages())
    refuse_difference("commands in sentences", [*SENTENCES.wanted, *NOT_RUN, *SPANS_BY_ETCD], in_sentences)
    pairs = [(DAMAGED, section) for section in DAMAGES] + list(SECTIONS.items())
    for heading, section in pairs:
        yield section, [line for block in found[heading] for line in block]
    yield SENTENCES, [line for line in in_sentences if line in SENTENCES.wanted]


def refuse_difference(what, known, found):
    """Refuses a guide in which other things are found than these tables have."""
    differ = sorted(set(known) ^ set(found))
    if differ:
        raise WrongLine(f"{what} that only the guide or only run_guide.py has: {', '.join(differ)}")


def run_guide(program):
    """Runs the lines that `make etcd` doesn't run. Returns how many hold, and how many can't run."""
    count = left_out = 0
    for section, lines in parts():
        refuse_unknown(section.wanted, lines)
        run = [line for line in lines if can_run(line)]
        run_section(section, run, program)
        count, left_out = count + len(run), left_out + len(lines) - len(run)
    return count, left_out


def main():
    try:
        count, left_out = run_guide(sys.argv[1])
    except WrongLine as fault:
        sys.exit(f"{GUIDE}: {fault}")
    print(f"{GUIDE}: {count} lines without $ hold" + f", {left_out} left out without jq" * bool(left_out))


if __name__ == "__main__":
    main()

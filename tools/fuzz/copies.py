"""What holds of the copies of a sound file."""

import os

from answers import File, info_of, read
from pages import compare_pages
from program import want

PAGE_SIZES = [2**power for power in range(10, 17)]
LEAST_META = 80


def compare_copy(file, listing, *words):
    """A copy is sound and lists the same. A copy of it is the same, also via another page size."""
    program = file.program
    copy, again, other = (file.copy(name) for name in ("copy.db", "again.db", "other.db"))
    line = file.text("compact", "-o", copy, *words)
    lengths = os.path.getsize(file.path), os.path.getsize(copy)
    want(line == b"%d -> %d bytes\n" % lengths, "compact prints", line)
    want(program.text("list", copy) == listing, "the copy lists other things")
    want(program.text("check", copy) == b"OK\n", "the copy isn't sound")
    program.text("compact", "-o", again, copy)
    want(read(again) == read(copy), "a copy of the copy differs")
    page_size = file.draw.choice(PAGE_SIZES)
    program.text("compact", "-o", other, "--page-size", page_size, copy)
    want(program.text("list", other) == listing, "the copy at", page_size, "lists other things")
    want(program.text("check", other) == b"OK\n", "the copy at", page_size, "isn't sound")
    os.remove(again)
    size = info_of(File(program, file.draw, copy, file.folder))["page size"]
    program.text("compact", "-o", again, "--page-size", size, other)
    want(read(again) == read(copy), "a copy differs by way of page size", page_size)
    compare_copied(file, copy, other)


def compare_copied(file, *copies):
    """A copy has the sequence of the root bucket, and no free page."""
    for path in copies:
        copy = File(file.program, file.draw, path, file.folder)
        want(info_of(copy)["sequence"] == info_of(file)["sequence"], "the root bucket's sequence is lost")
        kinds = compare_pages(copy, info_of(copy), os.path.getsize(path))
        want("free" not in kinds, "a copy has a free page")


def compare_prefixes(file, copy):
    """No proper prefix of a copy is accepted."""
    whole = read(copy)
    root = info_of(File(file.program, file.draw, copy, file.folder))["root"]
    lengths = [0, LEAST_META - 1, LEAST_META, len(whole) - 1]
    lengths += [file.draw.randrange(len(whole)) for _ in range(3)]
    for length in lengths:
        cut = file.copy("cut.db")
        with open(cut, "wb") as out:
            out.write(whole[:length])
        answer = file.program.run("check", cut)
        line = f"page {root}: cut off\n1 errors found\n" if length >= LEAST_META else ""
        fault = "" if line else "error: file too short\n"
        is_refused = answer.status == 1 and answer.out.decode() == line and answer.err.decode() == fault
        want(is_refused, "the first", length, "bytes of a copy:", answer)


def compare_slot(file, slot):
    """What is read under a named slot is listed and copied, or refused alike by all commands."""
    listed = file.run("list", "--meta", slot)
    copy = file.copy("copy.db")
    copied = file.run("compact", "--meta", slot, "-o", copy)
    for command in ("buckets", "stats"):
        answer = file.run(command, "--meta", slot)
        want((answer.status, answer.err) == (listed.status, listed.err), command, "--meta", slot, ":", answer)
    want((copied.status, copied.err) == (listed.status, listed.err), "compact --meta", slot, ":", copied)
    if listed.is_ok():
        want(file.program.text("list", copy) == listed.out, "the copy under meta", slot, "lists other things")
        want(file.program.text("check", copy) == b"OK\n", "the copy under meta", slot, "isn't sound")
    else:
        want(read(copy) == b"", "the copy of what is refused isn't empty")
    return listed

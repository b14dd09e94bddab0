"""What `load` makes of the listing of a sound file, and of listings with changed lines."""

import os
import re

from program import want
from results import info_of, read
from snapshots import hash_lines

LIMIT = 2**64
PAIRS = rb"(?:[0-9a-fA-F]{2})"
LINE = re.compile(rb"(%b+(?:/%b+)*) (?:= (%b*)|bucket ([0-9]+))" % (PAIRS, PAIRS, PAIRS))
# Bytes that a changed line may get.
MARKS = b"09afAFgx/= \r"
KINDS = ([], ["--for-bbolt"], ["--etcd-snapshot"])


def lines_of(text):
    """The lines of a text. The last one may lack its line feed."""
    lines = text.split(b"\n")
    return lines if lines[-1] else lines[:-1]


def member(line):
    """The path of a line, whether it is that of a bucket, and the line as `list` prints it; or nothing."""
    words = LINE.fullmatch(line)
    if words is None or int(words[3] or b"0") >= LIMIT:
        return None
    path = tuple(bytes.fromhex(part.decode()) for part in words[1].split(b"/"))
    item = b"= " + words[2].lower() if words[3] is None else b"bucket %d" % int(words[3])
    return path, words[3] is not None, words[1].lower() + b" " + item


def reading(text):
    """The lines that a text tells, as `list` prints them, and nothing; or nothing, and its first fault."""
    told, buckets, last = [], {()}, ()
    number = 1
    for number, line in enumerate(lines_of(text), 1):
        found = member(line)
        if found is None:
            return None, b"line %d: not a line of a listing" % number
        path, is_bucket, printed = found
        if path <= last:
            return None, b"line %d: path not rising" % number
        if path[:-1] not in buckets:
            return None, b"line %d: no bucket above" % number
        if is_bucket:
            buckets.add(path)
        told.append(printed + b"\n")
        last = path
    if not text.endswith(b"\n"):
        return None, b"line %d: cut off" % number
    return b"".join(told), None


def change(draw, lines):
    """Changes one line or byte of a listing, or leaves a line out, or moves one."""
    if not lines:
        lines.append(b"61 = ")
        return
    at = draw.randrange(len(lines))
    match draw.randrange(7):
        case 0:
            del lines[at]
        case 1:
            lines.insert(draw.randrange(len(lines) + 1), lines[at])
        case 2:
            other = draw.randrange(len(lines))
            lines[at], lines[other] = lines[other], lines[at]
        case 3:
            place = draw.randrange(len(lines[at]) + 1)
            lines[at] = lines[at][:place] + bytes([draw.choice(MARKS)]) + lines[at][place + 1 :]
        case 4:
            lines[at] = lines[at].upper().replace(b"BUCKET", b"bucket")
        case 5:
            lines[at] = lines[at].replace(b" bucket ", b" bucket 00")
        case 6:
            lines[at] = lines[at].replace(b" = ", b" bucket ") if draw.random() < 0.5 else b""


def changed(draw, listing):
    """A listing with changes, most often so few that it may still be one."""
    lines = lines_of(listing)
    for _ in range(draw.choice([1, 1, 1, 2, 4])):
        change(draw, lines)
    text = b"".join(line + b"\n" for line in lines)
    return text[:-1] if draw.random() < 0.2 else text


def make_copy(file, copy, kind):
    """Makes the copy that `compact` makes, and returns whether there is one: no snapshot is made of a file whose own
    hash isn't right."""
    own = hash_lines(read(file.path))
    if "--etcd-snapshot" in kind and own not in (b"", b"snapshot hash missing\n"):
        return False
    file.text("compact", "-o", copy, *kind)
    return True


def compare_same(file, listing):
    """What `load` makes of a file's listing, with its page size and sequence, is what `compact` makes of it. Of an
    empty listing it makes nothing."""
    info = info_of(file)
    numbers = ["--page-size", info["page size"], "--sequence", info["sequence"]]
    for kind in KINDS:
        text, copy, loaded = (file.copy(name) for name in ("listing.txt", "copy.db", "loaded.db"))
        with open(text, "wb") as out:
            out.write(listing)
        if not listing:
            result = file.program.run("load", "-o", loaded, text, *numbers, *kind)
            want(result.status == 1 and result.err == b"error: line 1: cut off\n", "load of nothing says", result)
            continue
        if not make_copy(file, copy, kind):
            continue
        line = file.program.text("load", "-o", loaded, text, *numbers, *kind)
        want(line == b"%d -> %d bytes\n" % (len(listing), os.path.getsize(loaded)), "load prints", line)
        want(read(loaded) == read(copy), "load", *kind, "isn't compact", *kind)


def compare_changed(file, listing):
    """A text is refused with its first fault, or its database is sound and lists it."""
    text, loaded = file.copy("listing.txt"), file.copy("loaded.db")
    data = changed(file.draw, listing)
    with open(text, "wb") as out:
        out.write(data)
    result = file.program.run("load", "-o", loaded, text)
    told, fault = reading(data)
    if told is None:
        want(result.status == 1 and result.err == b"error: " + fault + b"\n", "load says", result, "and not", fault)
        want(read(loaded) == b"", "OUT of what is refused isn't empty")
        return
    want(result.is_ok(), "load refuses a listing:", result)
    want(file.program.text("check", loaded) == b"OK\n", "what load writes isn't sound")
    want(file.program.text("list", loaded) == told, "what load writes lists other lines")


def compare_loads(file, listing):
    compare_same(file, listing)
    for _ in range(4):
        compare_changed(file, listing)

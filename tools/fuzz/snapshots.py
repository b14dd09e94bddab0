"""What holds of etcd's snapshots: a database, and 32 bytes more, its SHA-256."""

import hashlib
import os

from program import want
from results import read

BLOCK, HASH = 512, 32


def hash_lines(data):
    """What is wrong with the hash at the end of these bytes."""
    if len(data) % BLOCK == 0:
        return b"snapshot hash missing\n"
    if len(data) % BLOCK != HASH:
        return b"snapshot hash cut off\n"
    if hashlib.sha256(data[:-HASH]).digest() != data[-HASH:]:
        return b"snapshot hash differs\n"
    return b""


def with_hash(line, checked):
    """What `check --etcd-snapshot` prints, from the line of the hash and what `check` prints."""
    if not line or checked.err:
        return 1 if checked.err else checked.status, line + checked.out, checked.err
    findings = [] if checked.is_ok() else checked.out.splitlines(keepends=True)[:-1]
    count = b"%d errors found\n" % (len(findings) + 1)
    return 1, line + b"".join(findings) + count, b""


def compare_hash(file, *words):
    """`check --etcd-snapshot` prints what is wrong with the hash, and then what `check` prints."""
    checked = file.run("check", *words)
    result = file.run("check", "--etcd-snapshot", *words)
    wanted = with_hash(hash_lines(read(file.path)), checked)
    printed = result.status, result.out, result.err
    want(printed == wanted, "check --etcd-snapshot", *words, "printed:", result, "and not", wanted)


def compare_changed(file, snapshot):
    """A snapshot with a changed bit, or of another length, is found. It is as if it were read without
    the option otherwise."""
    data = bytearray(read(snapshot))
    place = file.draw.choice([0, len(data) - 1, len(data) - HASH, file.draw.randrange(len(data))])
    data[place] ^= 1 << file.draw.randrange(8)
    cut = read(snapshot)[: file.draw.choice([len(data) - 1, len(data) - HASH, file.draw.randrange(len(data))])]
    for line, changed in ((b"snapshot hash differs\n", data), (hash_lines(cut), cut)):
        path = file.copy("changed.db")
        with open(path, "wb") as out:
            out.write(changed)
        checked = file.program.run("check", path)
        result = file.program.run("check", "--etcd-snapshot", path)
        printed = result.status, result.out, result.err
        want(line != b"" and printed == with_hash(line, checked), "a changed snapshot:", result)


def compare_snapshot(file, listing, *words):
    """A snapshot is the copy for bbolt and its hash, is right and lists the same. Of a file whose own hash isn't
    right one is made only by a recovery, which says so first."""
    copy, snapshot, again = (file.copy(name) for name in ("copy.db", "snapshot.db", "again.db"))
    copied = file.run("compact", "--for-bbolt", "-o", copy, *words)
    made = file.run("compact", "--etcd-snapshot", "-o", snapshot, *words)
    data = read(copy)
    own = hash_lines(read(file.path))
    bad = b"" if own == b"snapshot hash missing\n" else own
    if bad and "--recover" not in words:
        want((made.status, made.out, made.err) == (1, b"", b"error: " + bad), "a snapshot is laundered:", made)
        want(read(snapshot) == b"", "OUT of a snapshot that is refused isn't empty")
        return
    want(read(snapshot) == data + hashlib.sha256(data).digest(), "a snapshot isn't the copy and its hash")
    *losses, _ = copied.out.splitlines(keepends=True)
    lengths = b"%d -> %d bytes\n" % (os.path.getsize(file.path), len(data) + HASH)
    want(made.out == bad + b"".join(losses) + lengths, "compact --etcd-snapshot prints", made)
    status = 1 if bad else copied.status
    want((made.status, made.err) == (status, copied.err), "compact --etcd-snapshot:", made)
    program = file.program
    want(program.text("check", "--etcd-snapshot", snapshot) == b"OK\n", "a snapshot isn't right")
    want(program.text("list", snapshot) == listing, "a snapshot lists other things")
    program.text("compact", "--etcd-snapshot", "-o", again, snapshot)
    want(read(again) == read(snapshot), "the snapshot of a snapshot differs")
    compare_changed(file, snapshot)

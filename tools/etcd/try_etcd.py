#!/usr/bin/env python3
"""Compares the program with an etcd server, for `make etcd`.

    try_etcd.py PROGRAM --seed N --keys N --seconds N

It starts a server on loopback and makes random writes: puts, deletions, transactions and leases of `--keys` names. Then
it has the server compact its store, and writes more. These files are compared with what etcd reports:

- a snapshot that etcdctl saves of the running server;
- the file of the stopped server, after more writes, and again after a restart;
- the file of a second server, which starts from the copy of that file that `compact --for-bbolt --etcd-snapshot` makes.
  It must first report of the copy what the first server did. Then it has more writes and another compaction;
- the file of a third server, which starts from that copy with revisions that go on a million ahead (`--bump-revision` of
  etcdutl, if it has that), after more writes.

Of each file

- `etcd-keys` prints exactly the keys that etcd reports, now and at ten revisions;
- `etcd-revisions` prints all revisions after the compaction;
- `etcd-get` prints some values, and finds no deleted key;
- `etcd-status` prints the last revision, the compaction, the number of keys, and the hash that `etcdctl endpoint hashkv`
  prints, now and at ten revisions after the compaction;
- `etcd-check` finds nothing.

Copies of the second file lose pages of the bucket `key`: its root page, every second branch, some leaves, and half of
them with the end of the file. A server starts from the copy of each that `etcd-repair --etcd-snapshot` makes, and has
more writes and another compaction. If all leaves are found, it reports what the first server did. If not, each key whose
newest revision is on a leaf that is left is as before, and each that differs is one of which the repair said so: revisions
up to that one may be missing.

The same is so of a store of 3,000 keys that has records that etcd can't read, that lost its newest root page, the ends of
transactions, or an early leaf, or whose bucket begins at one of its leaves (that is repaired with `--search`). If etcd has
freed pages with keys that were deleted before the compaction, these keys are back; none is of a later revision than that.

The lines of docs/GUIDE.md for etcd are run on files of another server: after the recipe of etcd's log a server has the
keys that it had before, and the new cluster those of the repaired copy. Nobody reads them without logging in. Three
members that are restored from the snapshot of the new cluster have one hash, that of the snapshot, also after one of
them lost its data and was replaced. etcd prints each of its messages that the guide explains.

The same seed makes the same writes. At a difference both sides are shown, the status is 1, and the files stay in
out/etcd. The run ends after `--seconds`, and the servers end with it, whatever happens. Without etcd or etcdctl nothing
is compared.
"""

import argparse
import os
import random
import shutil
import signal
import sys

from answers import ask
from bumped import compare_bumped
from compare import Comparisons, Difference
from large import try_large
from prefixes import compare_prefixes
from repairs import Repairs
from server import EtcdFault, Server, restore_snapshot
from try_guide import try_guide
from writes import Writer

FOLDER = os.path.join("out", "etcd")
# At how many revisions the keys of each file are compared.
REVISIONS_ASKED = 10
# A server of a repair has this part of the steps of another one.
REPAIR_STEPS = 10


def end_early(number, _):
    """Ends the run at a signal. All `with` blocks are left, so the server ends too."""
    sys.exit(f"etcd: ended by {signal.Signals(number).name}{', out of time' if number == signal.SIGALRM else ''}")


def end_in_time(seconds):
    """Ends the run after some seconds, or if it is interrupted."""
    for number in (signal.SIGALRM, signal.SIGTERM, signal.SIGINT, signal.SIGHUP):
        signal.signal(number, end_early)
    signal.alarm(seconds)


def in_folder(name):
    return os.path.join(FOLDER, name)


def try_member(writer, comparisons, steps):
    """Compares a snapshot of a server, and its file after its end. Returns the server, and what it reported last."""
    snapshot = in_folder("member.snapshot")
    with Server(in_folder("member")) as server:
        writer.put_all(server)
        writer.write_to(server, 2 * steps)
        compacted = writer.compact(1)
        writer.write_to(server, steps)
        server.save_snapshot(snapshot)
        saved = ask(server, compacted, REVISIONS_ASKED)
        writer.write_to(server, steps)
        last = ask(server, compacted, REVISIONS_ASKED)
    comparisons.compare_file(snapshot, saved)
    comparisons.compare_file(server.file, last)
    with server:
        again = ask(server, compacted, REVISIONS_ASKED)
    comparisons.compare_answers("etcd reports something else after a restart", last, again)
    comparisons.compare_file(server.file, again)
    return server, again


def try_copy(writer, comparisons, steps, file, before):
    """Compares a server that starts from the program's copy of a file. Returns its last revision."""
    copy = in_folder("copy.snapshot")
    ended = comparisons.run("compact", "--for-bbolt", "--etcd-snapshot", "-o", copy, file)
    if ended.status != 0 or ended.err:
        raise Difference(f"compact {file}: {ended!r}")
    restore_snapshot(copy, in_folder("restored"))
    with Server(in_folder("restored")) as server:
        after = ask(server, before.compacted, REVISIONS_ASKED)
        comparisons.compare_answers("etcd reports something else of the copy", before, after)
        writer.write_to(server, steps)
        compacted = writer.compact(before.compacted)
        writer.write_to(server, steps)
        last = ask(server, compacted, REVISIONS_ASKED)
    comparisons.compare_file(server.file, last)
    return last.last


def try_repairs(writer, comparisons, steps, file, before):
    """Compares servers that start from repairs of damaged copies of a file."""
    Repairs(writer, comparisons, FOLDER, file, before).compare_all(steps // REPAIR_STEPS)


def try_all(words):
    """Compares all files. Returns the line that says what was compared."""
    comparisons = Comparisons(words.program, random.Random(words.seed))
    writer = Writer(random.Random(words.seed), words.keys)
    server, last = try_member(writer, comparisons, words.keys)
    compare_prefixes(comparisons, server.file)
    try_repairs(writer, comparisons, words.keys, server.file, last)
    try_large(comparisons, random.Random(words.seed), in_folder("large"))
    revisions = try_copy(writer, comparisons, words.keys, server.file, last)
    compare_bumped(writer, comparisons, FOLDER, server.file, words.keys, REVISIONS_ASKED)
    runs = try_guide(comparisons, in_folder("guide"))
    counts = f"{comparisons.files} files, {comparisons.count} comparisons, {runs} runs of the guide's lines"
    return f"etcd: {server.version}, {revisions} revisions, {counts}"


def read_words():
    parser = argparse.ArgumentParser()
    parser.add_argument("program", type=os.path.abspath)
    parser.add_argument("--seed", type=int, required=True)
    parser.add_argument("--keys", type=int, required=True)
    parser.add_argument("--seconds", type=int, required=True)
    return parser.parse_args()


def main():
    words = read_words()
    if not shutil.which("etcd") or not shutil.which("etcdctl"):
        print("etcd: nothing is compared, since etcd or etcdctl isn't there (etcd-server, etcd-client)")
        return
    end_in_time(words.seconds)
    print(f"etcd: seed {words.seed}", flush=True)
    shutil.rmtree(FOLDER, ignore_errors=True)
    os.makedirs(FOLDER)
    try:
        print(try_all(words))
    except (Difference, EtcdFault, OSError) as fault:
        sys.exit(f"etcd: {fault} (seed {words.seed}, files in {FOLDER})")
    shutil.rmtree(FOLDER)


if __name__ == "__main__":
    main()

"""Compares etcd servers that start from repaired copies of a damaged file with what etcd reported of the file before."""

import os

from answers import ask, keys_at, last_revision
from files import read_file
from server import Server, restore_snapshot
from whole import Whole

# At how many revisions the keys are compared.
REVISIONS_ASKED = 5


class Repairs:
    """Repairs of damaged copies of a file of which etcd reported `before`. They are made in a folder."""

    def __init__(self, writer, comparisons, folder, file, before):
        self.writer = writer
        self.comparisons = comparisons
        self.folder = folder
        self.file = file
        self.before = before
        self.whole = Whole(comparisons, file, before.keys, before.compacted)
        self.store = self.whole.store

    def path(self, name, count):
        return os.path.join(self.folder, f"{name}{count}")

    def compare_all(self, steps):
        """Repairs each damaged copy, and serves it."""
        for count, damage in enumerate(self.store.damages()):
            self.repair(damage, self.path("damaged", count), self.path("repaired", count))
            restore_snapshot(self.path("repaired", count), self.path("served", count))
            self.serve(damage, self.path("served", count), steps)

    def is_found(self, damage):
        """Whether each leaf is left, and is the only page with its revisions that may be found."""
        return damage.leaves == self.store.leaves and not damage.is_cut

    def repair(self, damage, damaged, repaired):
        """Repairs a damaged copy. If nothing stays out of what is found, that is the copy of the whole file."""
        printed = self.whole.repair(damage, damaged, repaired)
        if self.is_found(damage) and b", 0 left out\n" in printed:
            whole = repaired + ".whole"
            copied = self.comparisons.run("compact", "--for-bbolt", "--etcd-snapshot", "-o", whole, self.file)
            self.comparisons.want_same(f"compact {self.file}", (0, b""), (copied.status, copied.err))
            same = read_file(whole) == read_file(repaired)
            self.comparisons.want_same(f"the repair without {damage.lost} is the copy of the whole file", True, same)

    def serve(self, damage, folder, steps):
        """Compares what a server reports of a repair. Then it has writes, deletions and a compaction."""
        writer = self.writer.fork()
        with Server(folder) as server:
            self.compare_served(damage, server)
            first = last_revision(server)
            writer.write_to(server, steps)
            compacted = writer.compact(first)
            writer.write_to(server, steps)
            last = ask(server, compacted, REVISIONS_ASKED)
        if self.is_found(damage):
            self.comparisons.compare_file(server.file, last)
        else:
            self.comparisons.compare_keys(server.file, last)

    def compare_served(self, damage, server):
        """If every leaf is found, the server reports what it did before. If not, only those keys differ that the repair
        reports."""
        if self.is_found(damage):
            what = f"etcd reports something else of the repair without {damage.lost}"
            after = ask(server, self.before.compacted, len(self.before.keys_at))
            self.comparisons.compare_answers(what, self.before, after)
        else:
            self.whole.compare_keys(damage, keys_at(server, 0))

"""Compares etcd servers that start from repairs of a store of 3,000 keys: a store that etcd can't read, that lost its root
page, the ends of transactions, or an early leaf if freed pages have deleted keys, or whose bucket begins at a leaf."""

import os

from answers import base64_text, keys_at, last_revision
from compare import Difference, Ended
from damage import KEY_BYTES, Store, main_of, numbers_of, read_record, unread_line
from files import read_file
from server import Server, restore_snapshot
from whole import Whole
from writes import commit

NAMES = [b"/registry/kind%d/name-%04d" % (number % 5, number) for number in range(3_000)]
# How many keys a transaction changes: nearly as many as etcd accepts, and those of a few pages.
MANY, FEW = 125, 10
# The lengths of values: a page has many of the short ones, and two or three of the long ones.
SHORT, LONG = (20, 80), (1_200, 1_500)
# One change in so many is a deletion.
DELETED = 5
# How many leaves are left on pages that etcd freed.
FREED = 3
NONE_BACK = b"0 revisions put back, 0 left out\n"


class Filler:
    """Fills a server in few transactions. Each changes other names."""

    def __init__(self, server, draw):
        self.server = server
        self.draw = draw
        self.names = draw.sample(NAMES, len(NAMES))

    def put_all(self):
        self.change(self.names, MANY, SHORT)

    def change_some(self):
        """Changes and deletes the last third, has etcd compact its store, and changes and deletes others. Returns the
        compaction. That is at a transaction without deletions, since newer releases of etcd keep those."""
        self.change(self.names[2_000:], MANY, SHORT, DELETED)
        self.change(self.names[1_000:1_100], MANY, SHORT)
        compacted = last_revision(self.server)
        self.server.request("kv/compaction", {"revision": str(compacted), "physical": True})
        self.change(self.names[1_100:1_400], FEW, LONG, DELETED)
        return compacted

    def change(self, names, count, lengths, deleted=None):
        """Changes names, so many in each transaction."""
        for first in range(0, len(names), count):
            puts, deletions = [], []
            for name in names[first : first + count]:
                if deleted and self.draw.randrange(deleted) == 0:
                    deletions.append({"key": base64_text(name)})
                else:
                    value = self.draw.randbytes(self.draw.randint(*lengths))
                    puts.append({"key": base64_text(name), "value": base64_text(value)})
            commit(self.server, self.draw, puts, deletions)


class Losses:
    """Repairs of what is left of such a store, in a folder; and the store before a key was deleted."""

    def __init__(self, whole, early, folder):
        self.whole = whole
        self.early = early
        self.store = whole.store
        self.comparisons = whole.comparisons
        self.folder = folder

    def path(self, name):
        return os.path.join(self.folder, name)

    def compare_all(self):
        self.compare_unread()
        self.compare("root", self.store.zeroed("the newest root page", [self.store.newest_root]))
        self.compare_ends()
        self.compare_freed()
        self.compare_led_past()

    def compare(self, name, damage, changed=()):
        """Repairs a damaged copy, and compares the keys of a server that starts from it. Those of some names must have
        changed."""
        repaired, served = self.path(name + ".snapshot"), self.path(name)
        self.whole.repair(damage, self.path(name + ".db"), repaired)
        restore_snapshot(repaired, served)
        with Server(served) as server:
            differ = self.whole.compare_keys(damage, keys_at(server, 0))
        as_before = [one for one in changed if one not in differ]
        self.comparisons.want_same(f"keys that are as before without {damage.lost}", [], as_before)

    def compare_unread(self):
        """etcd can't read the last put and the last deletion: the one key is older then, and the other one is back."""
        revisions = dict(self.store.revisions(self.store.leaves))
        keys = [max(key for key in revisions if len(key) == length) for length in (KEY_BYTES, KEY_BYTES + 1)]
        damage = self.store.unread(keys)
        self.compare("unread", damage, [read_record(revisions[key]).name for key in keys])
        checked = self.comparisons.run("etcd-check", self.path("unread.db"))
        lacking = {unread_line(key) for key in keys} - set(checked.out.decode().splitlines())
        self.comparisons.want_same("what etcd-check doesn't print of entries that etcd can't read", set(), lacking)

    def compare_ends(self):
        """Transactions lose their ends alone, of names that weren't changed later. No number is missing then, and nothing
        before a revision, so etcd-check finds nothing in the repair."""
        ends = [one for one in self.store.leaves if self.is_end(one) and self.is_only_there(one) and self.are_newest(one)]
        if not ends:
            raise Difference("no leaf has the end of a transaction alone")
        self.compare("ends", self.store.zeroed("the ends of transactions", ends), self.last_names(ends))
        self.want_ok("etcd-check", "ends.snapshot")

    def want_ok(self, command, name):
        ended = self.comparisons.run(command, self.path(name))
        self.comparisons.want_same(f"{command} {name}", Ended(0, b"OK\n", b""), ended)

    def last_names(self, leaves):
        """The names of the last revisions on some leaves, if these are only there."""
        return [read_record(self.store.last(leaf)[1]).name for leaf in leaves if self.is_only_there(leaf)]

    def is_end(self, leaf):
        """Whether a leaf has the end of a transaction, and nothing else."""
        (first, _), *_ = self.store.revisions([leaf])
        last, end = self.store.last(leaf)[0], self.store.ends[leaf]
        return end is not None and numbers_of(first)[1] > 0 and main_of(first) == main_of(last) < main_of(end)

    def are_newest(self, leaf):
        """Whether all revisions on a leaf are the newest of their names."""
        return all(self.is_newest(key, record) for key, record in self.store.revisions([leaf]))

    def is_newest(self, key, record):
        return self.whole.newest[read_record(record).name].modified == main_of(key)

    def is_only_there(self, leaf):
        """Whether the last revision on a leaf is the newest of its name, and on no other page, not even on a free one."""
        key, record = self.store.last(leaf)
        return self.store.data.count(key) == 1 and self.is_newest(key, record)

    def early_leaf(self):
        """A leaf with revisions from before the compaction, if there is one whose last revision is only there."""
        early = [leaf for leaf in self.store.leaves[:-1] if main_of(self.store.ends[leaf]) <= self.whole.compacted]
        return next(filter(self.is_only_there, early), early[0])

    def compare_freed(self):
        """A leaf is lost, so pages are found that etcd freed. Keys that were deleted before the compaction are back then,
        also such whose revision is above what may be missing."""
        leaf = self.early_leaf()
        freed = [one for one in self.early.leaves if self.deleted_on([one])][:FREED]
        damage = self.store.with_freed(self.store.zeroed("an early leaf", [leaf]), map(self.early.page, freed))
        self.compare("freed", damage, self.last_names([leaf]) + self.deleted_on(freed))

    def deleted_on(self, leaves):
        """The names on some leaves of the early store of which the whole file has no revision."""
        return [name for name in self.early.newest(leaves) if name not in self.whole.newest]

    def compare_led_past(self):
        """The bucket begins at one of its leaves. Its pages are sound, so others are only found with `--search`."""
        damage = self.store.led_past(self.store.leaves[len(self.store.leaves) // 2])
        self.compare("past", damage)
        self.want_ok("check", "past.db")
        ended = self.comparisons.run("etcd-repair", "-o", self.path("not.searched"), self.path("past.db"))
        is_plain = (ended.status, ended.err) == (0, b"") and ended.out.startswith(NONE_BACK)
        self.comparisons.want_same(f"without --search nothing is put back: {ended!r}", True, is_plain)


def try_large(comparisons, draw, folder):
    """Fills a store, and compares repairs of what is left of it."""
    os.mkdir(folder)
    with Server(os.path.join(folder, "member")) as server:
        filler = Filler(server, draw)
        filler.put_all()
        server.wait_until_stored()
        early = Store(read_file(server.file))
        compacted = filler.change_some()
        keys = keys_at(server, 0)
    Losses(Whole(comparisons, server.file, keys, compacted), early, folder).compare_all()

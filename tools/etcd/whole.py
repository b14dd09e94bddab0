"""Compares a repair of a damaged file, and a server that starts from it, with the file before, as etcd reported it."""

from compare import Difference
from damage import ANY, Store
from files import read_file, write_file

# How the lines end that say what isn't copied, and what may be missing.
SHORT = (b"; not copied", b" may be missing")


def kept(newest):
    """The keys that names have, by rising name, where these are their newest revisions."""
    return [one for _, one in sorted(newest.items()) if one.version > 0]


def by_name(keys):
    return {one.name: one for one in keys}


class Whole:
    """A file before its damages: its store, the keys that etcd reported of it, and its last compaction."""

    def __init__(self, comparisons, file, keys, compacted):
        self.comparisons = comparisons
        self.file = file
        self.store = Store(read_file(file))
        self.keys = keys
        self.compacted = compacted
        self.newest = self.store.newest(self.store.leaves)
        comparisons.want_same_lists("the keys on the leaves of the file", keys, kept(self.newest))

    def repair(self, damage, damaged, repaired):
        """Repairs a damaged copy. It must be reported what isn't copied, and up to where revisions may be missing. Returns
        all that is printed."""
        write_file(damaged, damage.data)
        ended = self.comparisons.run("etcd-repair", "--etcd-snapshot", *damage.options, "-o", repaired, damaged)
        if ended.status != damage.status() or ended.err:
            raise Difference(f"etcd-repair without {damage.lost}: {ended!r}")
        lines = [line.decode() for line in ended.out.splitlines() if line.endswith(SHORT)]
        self.comparisons.want_same(f"what a repair may lack without {damage.lost}", damage.lines(), lines)
        return ended.out

    def compare_keys(self, damage, served):
        """Compares the keys that a server has of a repair. Those whose newest revision is left are as before. Others may
        differ as far as the repair reports. Returns the names whose keys differ."""
        what = f"etcd reports something else of the repair without {damage.lost}"
        left = self.store.newest(damage.leaves, damage.unread)
        left = {name: one for name, one in left.items() if one == self.newest[name]}
        self.comparisons.want_same_lists(what, kept(left), [one for one in served if one.name in left])
        before, now = by_name(self.keys), by_name(served)
        differ = sorted(name for name in before.keys() | now.keys() if before.get(name) != now.get(name))
        for name in differ:
            is_reported = self.is_within(damage.bound, name, now.get(name))
            self.comparisons.want_same(f"{what}: whether {name!r}, now {now.get(name)}, may be so", True, is_reported)
        return differ

    def is_within(self, bound, name, now):
        """Whether a name may have another key than before, or none: if its newest revision isn't above the bound, and what
        it has now is older. A name of which the file had no revision can have one from a page that etcd freed, from
        before the last compaction."""
        if name not in self.newest:
            return bound == ANY or now.modified <= self.compacted
        newest = self.newest[name].modified
        return newest <= bound and (now is None or now.modified < newest)

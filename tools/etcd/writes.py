"""Makes random writes to an etcd server. The same seed makes the same writes."""

from copy import copy

from answers import base64_text, last_revision

# How often each kind of step is drawn, of a hundred.
STEPS = {"put": 48, "put_and_delete_several": 24, "delete": 14, "delete_range": 2, "grant_lease": 8, "revoke_lease": 4}
# How many keys a transaction writes at most, and each of those that put all names first.
MOST_IN_TRANSACTION = 12
NAMES_IN_FIRST = 50
# A name that each transaction puts, so that its version grows.
COUNTER = b"counter"
# Leases that don't expire during the run.
LEASE_SECONDS = 100_000


def draw_name(draw, number):
    """A name. Most are text, many are binary, and a few are longer than a page."""
    kind = draw.randrange(100)
    if kind < 60:
        return b"/registry/kind%d/name-%06d" % (number % 5, number)
    if kind < 98:
        return draw.randbytes(draw.randint(1, 60))
    return draw.randbytes(draw.randint(4_096, 9_000))


def draw_names(draw, count):
    """`count` different names. Some have another one as a prefix; some have only zeros, or only bytes of 255."""
    names = {b"\0", b"\0\0", b"\xff", b"\xff\xff"}
    while len(names) < count:
        is_longer = draw.randrange(10) == 0
        names.add(draw.choice(sorted(names)) + b"/" if is_longer else draw_name(draw, len(names)))
    return sorted(names)


def draw_value(draw):
    """A value: empty, short, some hundred bytes or longer than a page."""
    kind = draw.randrange(100)
    if kind < 5:
        return b""
    if kind < 50:
        return draw.randbytes(draw.randint(1, 40))
    if kind < 95:
        return draw.randbytes(draw.randint(41, 600))
    return draw.randbytes(draw.randint(4_096, 30_000))


def commit(server, draw, puts, deletions):
    """A transaction of these, in a random order."""
    parts = [{"request_put": put} for put in puts] + [{"request_delete_range": one} for one in deletions]
    draw.shuffle(parts)
    server.request("kv/txn", {"success": parts})


class Writer:
    """Makes the writes that a random generator draws, of `count` names."""

    def __init__(self, draw, count):
        self.server = None
        self.draw = draw
        self.names = draw_names(draw, count)
        self.frequent_first = draw.sample(self.names, count)
        self.leases = []
        self.granted = set()

    def fork(self):
        """One that goes on with the same names, and without the leases, for a server that starts from an older state."""
        forked = copy(self)
        forked.leases, forked.granted = [], set(self.granted)
        return forked

    def put_all(self, server):
        """Puts every name, in a few transactions to this server."""
        self.server = server
        for first in range(0, len(self.names), NAMES_IN_FIRST):
            names = self.frequent_first[first : first + NAMES_IN_FIRST]
            commit(server, self.draw, [self.drawn_put(name) for name in names], [])

    def write_to(self, server, steps):
        """Makes random requests to this server."""
        self.server = server
        kinds, weights = list(STEPS), list(STEPS.values())
        for _ in range(steps):
            getattr(self, self.draw.choices(kinds, weights)[0])()

    def drawn_name(self):
        """A name. Some are drawn often, and a fifth of them never, so that values from before a compaction stay."""
        return self.frequent_first[int(0.8 * len(self.names) * self.draw.random() ** 3)]

    def drawn_put(self, name):
        """A put of this name, one in four with a lease."""
        put = {"key": base64_text(name), "value": base64_text(draw_value(self.draw))}
        if self.leases and self.draw.randrange(4) == 0:
            put["lease"] = str(self.draw.choice(self.leases))
        return put

    def put(self):
        self.server.request("kv/put", self.drawn_put(self.drawn_name()))

    def put_and_delete_several(self):
        """A transaction of puts and deletions of different names."""
        names = sorted({self.drawn_name() for _ in range(self.draw.randint(2, MOST_IN_TRANSACTION))})
        deleted = {name for name in names if self.draw.randrange(5) == 0}
        puts = [self.drawn_put(name) for name in names if name not in deleted]
        puts.append({"key": base64_text(COUNTER), "value": base64_text(draw_value(self.draw))})
        commit(self.server, self.draw, puts, [{"key": base64_text(name)} for name in sorted(deleted)])

    def delete(self):
        """A deletion of one name, which may not be there."""
        self.server.request("kv/deleterange", {"key": base64_text(self.drawn_name())})

    def delete_range(self):
        """A deletion of all names from one to below another: several deletions in one revision."""
        first = self.draw.randrange(len(self.names) - 1)
        end = min(first + self.draw.randint(1, 6), len(self.names) - 1)
        range_of_names = {"key": base64_text(self.names[first]), "range_end": base64_text(self.names[end])}
        self.server.request("kv/deleterange", range_of_names)

    def grant_lease(self):
        """A lease with a number of few or many digits."""
        lease = self.draw.getrandbits(self.draw.choice([16, 40, 62])) + 1
        if lease not in self.granted:
            self.server.request("lease/grant", {"TTL": LEASE_SECONDS, "ID": str(lease)})
            self.granted.add(lease)
            self.leases.append(lease)

    def revoke_lease(self):
        """The end of a lease, and with it of all keys that have it, in one revision."""
        if self.leases:
            lease = self.leases.pop(self.draw.randrange(len(self.leases)))
            self.server.request("lease/revoke", {"ID": str(lease)})

    def compact(self, after):
        """Has etcd compact its store at the middle between a revision and the last one. Returns at which."""
        compacted = (after + last_revision(self.server)) // 2
        self.server.request("kv/compaction", {"revision": str(compacted), "physical": True})
        return compacted

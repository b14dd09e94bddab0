"""What etcd reports of its keys: those at a revision, and the revisions after one."""

import base64
from dataclasses import dataclass

# How many keys are requested at once.
PAGE_KEYS = 500
# The least name. As the end of a range it means that there is no end.
EVERY_NAME = b"\0"


@dataclass(frozen=True)
class Revision:
    """A key as a revision left it. A deletion has no value; its created revision, version and lease are 0."""

    name: bytes
    value: bytes
    created: int
    modified: int
    version: int
    lease: int

    def __repr__(self):
        """Short enough for a line: long names and values are cut, with their lengths."""
        texts = [f"{one[:32]!r} ({len(one)} bytes)" for one in (self.name, self.value)]
        numbers = f"created {self.created}, modified {self.modified}, version {self.version}, lease {self.lease:x}"
        return f"{texts[0]} = {texts[1]}, {numbers}"


@dataclass(frozen=True)
class Answers:
    """What etcd reports of a whole store."""

    compacted: int
    last: int
    # The keys by rising name, now and at some revisions.
    keys: list[Revision]
    keys_at: dict[int, list[Revision]]
    # The revisions after the compaction, in order, deletions too.
    revisions: list[Revision]
    # The hash of the store at some revisions after the compaction, with the compaction that the server reports beside it.
    hashes: dict[int, tuple[int, int]]


def base64_text(data):
    """Bytes as they are written in JSON."""
    return base64.b64encode(data).decode()


def read_revision(members):
    """A key as etcd writes it in JSON, where members that are 0 or empty are left out."""
    name, value = (base64.b64decode(members.get(member, "")) for member in ("key", "value"))
    numbers = ("create_revision", "mod_revision", "version", "lease")
    return Revision(name, value, *(int(members.get(member, 0)) for member in numbers))


def last_revision(server):
    """The number of the newest revision."""
    return int(server.request("maintenance/status", {})["header"]["revision"])


def keys_at(server, revision):
    """All keys at a revision, by rising name."""
    keys, first = [], EVERY_NAME
    while True:
        names = {"key": base64_text(first), "range_end": base64_text(EVERY_NAME)}
        page = server.request("kv/range", names | {"revision": revision, "limit": PAGE_KEYS})
        keys += map(read_revision, page.get("kvs", []))
        if not page.get("more"):
            return keys
        first = keys[-1].name + b"\0"


def revisions_after(server, compacted, last):
    """All revisions above the first number, up to the last, as a watch reports them."""
    every = base64_text(EVERY_NAME)
    body = {"create_request": {"key": every, "range_end": every, "start_revision": compacted + 1}}
    revisions = []
    for message in server.stream("watch", body):
        revisions += [read_revision(event["kv"]) for event in message.get("events", [])]
        if revisions and revisions[-1].modified >= last:
            break
    return revisions


def some_between(first, last, count):
    """This many numbers from the first to the last."""
    return [first + (last - first) * step // (count - 1) for step in range(count)]


def ask(server, compacted, count):
    """What etcd reports: keys and hashes at `count` revisions from the compaction to the last, and all revisions."""
    last = last_revision(server)
    return Answers(
        compacted,
        last,
        keys_at(server, 0),
        {revision: keys_at(server, revision) for revision in some_between(compacted, last, count)},
        revisions_after(server, compacted, last),
        {revision: server.hash_kv(revision) for revision in some_between(compacted + 1, last, count)},
    )

"""Compares what the program prints of a file with what etcd reports."""

import json
import subprocess
from dataclasses import dataclass
from itertools import zip_longest

from answers import Revision

# How long a run of the program may take.
RUN_SECONDS = 60
# How many names `etcd-get` is tried with: as many now, at a revision, and of deleted keys.
NAMES_TRIED = 6
# The members of a line in JSON, in their order.
MEMBERS = ["revision", "sub", "created", "version", "lease", "bytes", "name", "value"]


class Difference(Exception):
    """The program and etcd differ."""


@dataclass(frozen=True)
class Ended:
    """How a run of the program ended."""

    status: int
    out: bytes
    err: bytes

    def __repr__(self):
        return f"status {self.status}, {len(self.out)} bytes {self.out[:100]!r}, {self.err[:300]!r}"


def read_line(line):
    """The sub and the revision of a line that the program prints."""
    members = json.loads(line)
    name, value = (bytes.fromhex(members[member]) for member in ("name", "value"))
    lease = int(members["lease"], 16)
    if list(members) != MEMBERS or members["bytes"] != len(value) or members["lease"] != f"{lease:x}":
        raise ValueError("a member is missing, out of place or of another form")
    numbers = (members[member] for member in ("created", "revision", "version"))
    return members["sub"], Revision(name, value, *numbers, lease)


def number_subs(revisions):
    """The revisions in order, each with its sub: its place among those of its transaction."""
    numbered, before = [], None
    for one in revisions:
        sub = sub + 1 if one.modified == before else 0
        numbered.append((sub, one))
        before = one.modified
    return numbered


def newest_is_deletion(revisions):
    """The names whose newest revision is a deletion."""
    newest = {one.name: one for one in revisions}
    return sorted(name for name, one in newest.items() if one.version == 0)


def is_text(name):
    """Whether a name can be a word of a command line as it is."""
    return all(0x21 <= byte <= 0x7E for byte in name) and not name.startswith(b"-")


class Comparisons:
    """Compares the program with etcd, and counts the comparisons."""

    def __init__(self, program, draw):
        self.program = program
        self.draw = draw
        self.count = 0
        self.files = 0

    def run(self, *words):
        """Runs the program."""
        words = [str(word) for word in words]
        try:
            ended = subprocess.run([self.program, *words], capture_output=True, timeout=RUN_SECONDS)
        except subprocess.TimeoutExpired:
            raise Difference(f"the program doesn't end: {' '.join(words)}") from None
        return Ended(ended.returncode, ended.stdout, ended.stderr)

    def want_same(self, what, theirs, ours):
        """Compares two results."""
        self.count += 1
        if theirs != ours:
            raise Difference(f"{what}\n    expected: {theirs!r}\n    found:    {ours!r}")

    def want_same_lists(self, what, theirs, ours):
        """Compares two lists, and shows the first items that differ."""
        self.count += 1
        for place, (one, other) in enumerate(zip_longest(theirs, ours)):
            if one != other:
                lengths = f"items {place} of {len(theirs)} and {len(ours)}"
                raise Difference(f"{what}: {lengths}\n    expected: {one!r}\n    found:    {other!r}")

    def lines(self, *words):
        """The subs and the revisions that the program prints, with status 0."""
        ended = self.run(*words)
        if ended.status != 0 or ended.err:
            raise Difference(f"{words}: {ended!r}")
        try:
            return [read_line(line) for line in ended.out.splitlines()]
        except (LookupError, TypeError, ValueError) as fault:
            raise Difference(f"{words}: a line isn't readable: {fault!r}") from None

    def compare_file(self, file, answers):
        """Compares a file with what etcd reports of it."""
        self.files += 1
        self.want_same(f"etcd-check {file}", Ended(0, b"OK\n", b""), self.run("etcd-check", file))
        self.compare_keys(file, answers)
        self.compare_revisions(file, answers)
        self.compare_status(file, answers)
        for name, one in self.some_of({one.name: one for one in answers.keys}):
            self.want_same(f"etcd-get {file}: {one!r}", Ended(0, one.value, b""), self.get(file, name))
        middle = sorted(answers.keys_at)[len(answers.keys_at) // 2]
        for name, one in self.some_of({one.name: one for one in answers.keys_at[middle]}):
            ours = self.get(file, name, "--at", middle)
            self.want_same(f"etcd-get --at {middle} {file}: {one!r}", Ended(0, one.value, b""), ours)
        for name, _ in self.some_of(dict.fromkeys(newest_is_deletion(answers.revisions))):
            deleted = Ended(1, b"", b"error: key not found\n")
            self.want_same(f"etcd-get {file}: deleted, {name[:32]!r}", deleted, self.get(file, name))

    def compare_keys(self, file, answers):
        """Compares all keys, now and at some revisions. One before the compaction is refused."""
        shown = ("etcd-keys", "--values", "--form", "json-hex", file)
        ours = [one for _, one in self.lines(*shown)]
        self.want_same_lists(f"etcd-keys {file}", answers.keys, ours)
        for revision, theirs in answers.keys_at.items():
            ours = [one for _, one in self.lines(*shown, "--at", revision)]
            self.want_same_lists(f"etcd-keys --at {revision} {file}", theirs, ours)
        before = answers.compacted - 1
        compacted = Ended(1, b"", b"error: revision compacted\n")
        self.want_same(f"etcd-keys --at {before} {file}", compacted, self.run(*shown, "--at", before))

    def compare_revisions(self, file, answers):
        """Compares all revisions after the compaction."""
        after = answers.compacted + 1
        ours = self.lines("etcd-revisions", "--values", "--form", "json-hex", "--from", after, file)
        self.want_same_lists(f"etcd-revisions --from {after} {file}", number_subs(answers.revisions), ours)

    def compare_status(self, file, answers):
        """Compares the figures of the store, and its hash at some revisions."""
        for revision, theirs in answers.hashes.items():
            figures = self.status(file, "--at", revision)
            self.want_same(f"etcd-status --at {revision} {file}", theirs, (figures["hash"], figures["compacted"]))
        figures = self.status(file)
        theirs = (answers.last, len(answers.keys), *answers.hashes[answers.last])
        ours = tuple(figures[name] for name in ("revision", "keys", "hash", "compacted"))
        self.want_same(f"etcd-status {file}", theirs, ours)

    def status(self, file, *words):
        """The figures of a store, by their names."""
        ended = self.run("etcd-status", "--form", "json", file, *words)
        if ended.status != 0 or ended.err:
            raise Difference(f"etcd-status {file} {words}: {ended!r}")
        return json.loads(ended.out)

    def some_of(self, named):
        """Some names with what they stand for."""
        names = sorted(named)
        return [(name, named[name]) for name in self.draw.sample(names, min(NAMES_TRIED, len(names)))]

    def get(self, file, name, *words):
        """The value of a name, which is given as text if it can be."""
        given = [name.decode()] if is_text(name) else [name.hex(), "--parts", "hex"]
        return self.run("etcd-get", "-n", "--form", "bytes", file, *given, *words)

    def compare_answers(self, what, before, after):
        """Compares what etcd reports of a file and, later, of its copy."""
        self.want_same(what, (before.compacted, before.last), (after.compacted, after.last))
        self.want_same_lists(what, before.keys, after.keys)
        self.want_same_lists(what, before.revisions, after.revisions)
        for revision, keys in before.keys_at.items():
            self.want_same_lists(f"{what} at {revision}", keys, after.keys_at[revision])
        self.want_same(f"{what}: hashes", before.hashes, after.hashes)

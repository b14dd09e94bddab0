"""What holds of `check --all` and of the commands with `--recover`, under each meta."""

import os
import re

from found import compare_found, compare_repaired
from gaps import GAP, gaps_below, without_gaps
from listings import paths_between
from options import buckets_of, lines_of_json, part_of
from program import Result, want
from recovered_buckets import compare_recovered_buckets
from results import File, entries_of, info_of, named, read, rows_of, word_of, words_of
from snapshots import compare_hash, compare_snapshot

LOSS = re.compile(
    r"(?P<finding>pages? (?P<page>\d+)(?: to \d+)?: [a-z ]+); lost: "
    r"(?:(?P<all>everything)|(?:root bucket|bucket (?P<path>[0-9a-f/]+)(?: \(.*?\))?)"
    r"(?:, keys from (?P<low>[0-9a-f]*)(?: \(.*?\))?(?: to below (?P<high>[0-9a-f]+)(?: \(.*?\))?)?)?)"
)
MOST_RESTS = 3
MOST_ZEROED = 3


class Loss:
    """A line of a loss, as data. Bounds that aren't there are None."""

    def __init__(self, line):
        parts = LOSS.fullmatch(line)
        want(parts is not None, "no loss:", line)
        self.finding = parts["finding"]
        self.page = int(parts["page"])
        self.is_all = parts["all"] is not None
        self.bucket = tuple(bytes.fromhex(key) for key in (parts["path"] or "").split("/") if key)
        self.low, self.high = (key if key is None else bytes.fromhex(key) for key in (parts["low"], parts["high"]))
        want(line == f"{self.finding}; lost: {self.words()}", "other texts of paths or keys:", line)

    def words(self):
        """What is lost, as the line says it."""
        if self.is_all:
            return "everything"
        bucket = f"bucket {named(self.bucket)}" if self.bucket else "root bucket"
        low = "" if self.low is None else f", keys from {named([self.low])}"
        return bucket + low + ("" if self.high is None else f" to below {named([self.high])}")

    def place(self):
        """Where it stands in the order of ways, as a path."""
        return self.bucket if self.low is None else self.bucket + (self.low,)

    def has(self, path):
        """Whether a member with this path can have been on the page or below it."""
        depth = len(self.bucket)
        if self.is_all:
            return True
        if path[:depth] != self.bucket or len(path) == depth:
            return False
        key = path[depth]
        return (self.low is None or self.low <= key) and (self.high is None or key < self.high)


def lines_of(checked):
    """The lines of `check --all`, without the count."""
    *lines, count = checked.out.decode().splitlines()
    want(count == f"{len(lines)} errors found", "check --all counts", count, "of", len(lines))
    return lines


def recover_copy(file, words, name="recovered.db"):
    """What `compact --recover` prints, and where its copy is."""
    copy = file.copy(name)
    return file.run("compact", "--recover", "-o", copy, *words), copy


def same(result, other):
    return (result.status, result.out, result.err) == (other.status, other.out, other.err)


def compare_refused(file, words, fault):
    """Nothing is recovered: the results have this fault, and the copy is empty."""
    copied, copy = recover_copy(file, words)
    printed = [file.run(*command, "--recover", *words) for command in (["list"], ["buckets"], ["keys", "k"], ["get", "k"])]
    for result in (*printed, copied):
        want(result.status == 1 and (result.out, result.err) == (b"", fault), *words, "recovers:", result)
    want(read(copy) == b"", "the copy of what is refused isn't empty")


def place_under(file, words):
    """The page size and the root page of the meta that the words name."""
    option, value = words
    if option == "--assume-meta":
        return [int(number) for number in value.split(":")]
    lines = file.text("info", *words).decode().splitlines()
    numbers = dict(line.rsplit(" ", 1) for line in lines)
    return int(numbers["page size"]), int(numbers["root"])


def compare_whole(file, words):
    """The trees are sound: --recover prints and writes what --meta does."""
    gaps = list(gaps_below(read(file.path), *place_under(file, words)))
    wanted = "\n".join([*gaps, f"{len(gaps)} errors found" if gaps else "OK", ""]).encode()
    for extent in ("--all", "--lost-and-found"):
        result = file.run("check", extent, *words)
        want((result.out, result.err) == (wanted, b""), "of sound trees check", extent, "prints", result, "and not", wanted)
    listed = file.run("list", "--recover", *words)
    want(same(listed, file.run("list", *words)), "list --recover", *words)
    compare_recovered_buckets(file, words, listed, entries_of(listed.out))
    for layout in ([], ["--for-bbolt"]):
        copied, copy = recover_copy(file, [*words, *layout])
        plain = file.copy("plain.db")
        want(same(copied, file.run("compact", "-o", plain, *words, *layout)), "compact --recover:", copied)
        want(read(copy) == read(plain), "the copies of sound trees differ", *layout)


def compare_losses(lines, losses, entries):
    """The losses are in order, and nothing that is lost is listed."""
    places = [loss.place() for loss in losses]
    want(all(before < place for before, place in zip(places, places[1:])), "losses out of order:", lines)
    for loss, line in zip(losses, lines):
        want(not any(loss.has(path) for path in entries), "listed, but lost:", line)
        in_bucket = not loss.bucket or isinstance(entries.get(loss.bucket), int)
        want(in_bucket, "the bucket of a loss isn't listed:", line)


def compare_rests(file, words, listed, entries):
    """The recovered listing from a path is all that isn't below it, and as much is lost."""
    lines = listed.out.splitlines(keepends=True)
    paths = list(entries)
    firsts = list(paths_between(file.draw, file.some(paths)))
    for first in file.draw.sample(firsts, min(MOST_RESTS, len(firsts))):
        rest = b"".join(line for line, path in zip(lines, paths) if path >= first)
        result = file.run("list", "--recover", "--from", word_of(first), *words)
        is_rest = (result.status, result.out, result.err) == (1, rest, listed.err)
        want(is_rest, "list --recover --from", word_of(first), "printed:", result)


def compare_recovered_parts(file, words, listed, entries):
    """The recovered listing of a bucket is the lines with its path, and as much is lost. If there is no
    such bucket, this is reported and not what is lost."""
    shown = file.run("list", "--recover", "--form", "json", *words)
    is_same = (shown.status, shown.err) == (1, listed.err) and lines_of_json(shown.out) == listed.out
    want(is_same, "list --recover --form json", *words, "printed:", shown)
    for bucket in file.some(buckets_of(entries))[:MOST_RESTS]:
        result = file.run("list", "--recover", *words, *words_of(file.draw, bucket))
        is_part = (result.status, result.out, result.err) == (1, part_of(listed.out, bucket), listed.err)
        want(is_part, "list --recover", word_of(bucket), "printed:", result)
    for path in list(paths_between(file.draw, file.some(entries)))[-MOST_RESTS:]:
        if not isinstance(entries.get(path), int):
            result = file.run("list", "--recover", *words, *words_of(file.draw, path))
            is_missing = (result.status, result.out, result.err) == (1, b"", b"error: bucket not found\n")
            want(is_missing, "list --recover", word_of(path), "printed:", result)


def compare_copies(file, words, lines, listing):
    """The copy of what is recovered reports the losses, is sound and lists the same."""
    for layout in ([], ["--for-bbolt"]):
        copied, copy = recover_copy(file, [*words, *layout])
        lengths = f"{os.path.getsize(file.path)} -> {os.path.getsize(copy)} bytes"
        printed = "".join(line + "\n" for line in [*lines, lengths]).encode()
        want((copied.status, copied.out, copied.err) == (1, printed, b""), "compact --recover:", copied)
        want(file.program.text("check", copy) == b"OK\n", "the recovered copy isn't sound")
        want(file.program.text("list", copy) == listing, "the recovered copy lists other things")
        again = file.copy("again.db")
        file.program.text("compact", "-o", again, copy, *layout)
        want(read(again) == read(copy), "a copy of the recovered copy differs")
        size = info_of(File(file.program, file.draw, copy, file.folder))["page size"]
        other = file.copy("other.db")
        file.run("compact", "--recover", "-o", other, "--page-size", size, *words, *layout)
        want(read(other) == read(copy), "the recovered copy differs at its own page size")


def compare_lost(file, words, finding):
    """The trees aren't sound: what is lost, what is listed and what is copied belong together."""
    lines = without_gaps(lines_of(file.run("check", "--all", *words)))
    losses = [Loss(line) for line in lines]
    want(losses[0].finding == finding, "the first loss is", lines[0], "and check finds", finding)
    if any(loss.is_all for loss in losses):
        want(len(losses) == 1, "everything is lost, and more:", lines)
        compare_refused(file, words, f"error: file refused: {finding}\n".encode())
        return
    listed = file.run("list", "--recover", *words)
    want(listed.status == 1 and listed.err == f"error: pages lost: {len(losses)}\n".encode(), "reported is", listed)
    entries = entries_of(listed.out)
    paths = list(entries)
    want(len(paths) == len(listed.out.splitlines()), "a path stands twice in the recovered listing")
    want(paths == sorted(paths), "the paths of the recovered listing don't rise")
    compare_losses(lines, losses, entries)
    compare_rests(file, words, listed, entries)
    compare_recovered_parts(file, words, listed, entries)
    compare_recovered_buckets(file, words, listed, entries)
    compare_snapshot(file, listed.out, "--recover", *words)
    compare_copies(file, words, lines, listed.out)


def compare_under(file, words):
    """What is recovered under a meta, compared with what `check` finds under it."""
    compare_hash(file, *words)
    compare_found(file, words)
    compare_repaired(file, words)
    checked = file.run("check", *words)
    if checked.err:
        want(same(file.run("check", "--all", *words), checked), "check --all", *words)
        compare_refused(file, words, checked.err)
    elif checked.is_ok():
        compare_whole(file, words)
    else:
        finding, count = checked.out.decode().splitlines()
        want(count == "1 errors found", "check", *words, "counts", count)
        compare_lost(file, words, finding)


def with_gaps(checked, under):
    """What `check` prints, and then the gaps that `check --all` prints under the meta, which is all it finds there; or its
    losses and gaps."""
    if under.is_ok():
        return checked
    lines = under.out.splitlines(keepends=True)[:-1]
    if checked.is_ok() or not all(GAP.match(line) for line in lines):
        return under
    found = checked.out.splitlines(keepends=True)[:-1] + lines
    return Result(1, b"".join(found) + b"%d errors found\n" % len(found), b"")


def compare_all(file, slot, checked):
    """`check --all` is `check` if nothing is lost, and otherwise what it is with --meta. What is wrong with the meta that
    isn't in use comes first, and is counted."""
    of_pages = with_gaps(checked, file.run("check", "--all", "--meta", slot))
    result, other = file.run("check", "--all"), file.run("info", "--meta", 1 - slot)
    if other.is_ok():
        want(same(result, of_pages), "check --all isn't that of its meta")
        return
    line = b"meta %d: " % (1 - slot) + other.err.removeprefix(b"error: ")
    lines = [] if of_pages.is_ok() else of_pages.out.splitlines(keepends=True)[:-1]
    wanted = line + b"".join(lines) + b"%d errors found\n" % (len(lines) + 1)
    want((result.status, result.out, result.err) == (1, wanted, b""), "check --all, whose other meta is damaged:", result)


def with_older_state(listed, line):
    """What `list --recover` does without --meta, if the other meta is damaged, as this line says. It is as under the meta
    that is named, but for what is reported."""
    if listed.err.startswith(b"error: pages lost: "):
        return Result(1, listed.out, listed.err[:-1] + b"; " + line)
    return listed if listed.err else Result(1, listed.out, b"error: " + line)


def compare_active(file, slot, checked):
    """Without --meta the active meta is used. It is reported if the other one is damaged."""
    compare_all(file, slot, checked)
    other = file.run("info", "--meta", 1 - slot)
    line = b"" if other.is_ok() else b"meta %d: " % (1 - slot) + other.err.removeprefix(b"error: ")
    listed, under = file.run("list", "--recover"), file.run("list", "--recover", "--meta", slot)
    want(same(listed, with_older_state(under, line) if line else under), "list --recover:", listed)
    copied, copy = recover_copy(file, [])
    under, copy_under = recover_copy(file, ["--meta", slot], "other.db")
    wanted = under if under.err or not line else Result(1, line + under.out, b"")
    want(same(copied, wanted) and read(copy) == read(copy_under), "compact --recover:", copied)


def compare_recovery(file, checked):
    """What is recovered of a file that has a meta. `checked` is what `check` prints."""
    for slot in (0, 1):
        compare_under(file, ["--meta", slot])
    compare_active(file, info_of(file)["meta"], checked)


def compare_pages_lost(file, listing):
    """Some pages of a sound file's trees are zeroed. If these alone are lost, everything else is
    listed."""
    info = info_of(file)
    size, data = info["page size"], bytearray(read(file.path))
    rows, _ = rows_of(file.text("pages"))
    pages = [number for _, number, kind in rows if kind in ("branch", "leaf")]
    zeroed = file.draw.sample(pages, min(file.draw.randint(1, MOST_ZEROED), len(pages)))
    for number in zeroed:
        data[number * size : (number + 1) * size] = bytes(size)
    path = os.path.join(file.folder, "zeroed.db")
    with open(path, "wb") as out:
        out.write(data)
    damaged = File(file.program, file.draw, path, file.folder)
    words = ["--meta", info["meta"]]
    compare_under(damaged, words)
    checked = damaged.run("check", "--all", *words)
    losses = [] if checked.is_ok() else [Loss(line) for line in without_gaps(lines_of(checked))]
    if not losses or any(loss.is_all or loss.page not in zeroed for loss in losses):
        return
    whole, left = entries_of(listing), entries_of(damaged.run("list", "--recover", *words).out)
    gone = [path for path in whole if path not in left]
    is_lost = all(any(loss.has(path) for loss in losses) for path in gone)
    want(is_lost, "pages", zeroed, "are zeroed, and more is gone than the losses say")
    want(all(path in whole for path in left), "what is recovered wasn't there")

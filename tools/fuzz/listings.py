"""What `keys`, `get`, `buckets` and `list` say of a sound file, compared with its listing."""

from program import want
from results import FORMS, entries_of, lines_in, word_of, words_of


# Commands on a bucket, beside `keys`.
IN_BUCKETS = (["list"], ["list", "--recover"], ["buckets", "--sizes"], ["stats"])


def compare_order(listing):
    """Each path is listed once, in order, after the bucket that it is in."""
    paths = list(entries_of(listing))
    want(len(paths) == len(listing.splitlines()), "a path stands twice in the listing")
    want(paths == sorted(paths), "the paths of the listing don't rise")
    entries = entries_of(listing)
    for path in paths:
        outer = path[:-1]
        want(not outer or isinstance(entries[outer], int), "the listing has no bucket", word_of(outer))


def paths_between(draw, paths):
    """Paths of the listing, and others near them."""
    for path in paths:
        yield path
        yield path + (b"\0",)
        yield path[:-1] + (path[-1] + b"\0",)
        yield path[:-1] + (path[-1][: draw.randint(1, len(path[-1]))],)
    yield (b"\0",)
    yield (b"\xff" * 41,)


def compare_rests(file, listing):
    """The listing from a path is all that isn't below it."""
    lines = listing.splitlines(keepends=True)
    paths = list(entries_of(listing))
    for first in file.some(paths_between(file.draw, file.some(paths))):
        rest = b"".join(line for line, path in zip(lines, paths) if path >= first)
        want(file.text("list", "--from", word_of(first)) == rest, "list --from", word_of(first))


def compare_keys(file, entries):
    """The keys of a bucket are those of the listing right below it, its buckets among them."""
    buckets = [path for path, item in entries.items() if isinstance(item, int)]
    for bucket in file.some(buckets):
        names = [path[-1] for path in entries if path[:-1] == bucket]
        words = ["--form", file.draw.choice(list(FORMS)), *words_of(file.draw, bucket)]
        want(file.text("keys", *words) == lines_in(words[1], names), "keys", *words)
    names = [path[0] for path, item in entries.items() if len(path) == 1 and isinstance(item, int)]
    for form in FORMS:
        want(file.text("buckets", "--form", form) == lines_in(form, names), "buckets --form", form)


def compare_values(file, entries):
    """The value at a path is that of the listing, in each form."""
    values = {path: item for path, item in entries.items() if isinstance(item, bytes)}
    for path in file.some(values):
        for form in FORMS:
            words = ["--form", form, *words_of(file.draw, path)]
            want(file.text("get", *words) == lines_in(form, [values[path]]), "get", *words)


def compare_missing(file, entries):
    """A path that holds something else or nothing is reported as such."""
    for path in file.some(paths_between(file.draw, file.some(entries))):
        words = words_of(file.draw, path)
        in_bucket = not path[:-1] or isinstance(entries.get(path[:-1]), int)
        got, keys = file.run("get", *words), file.run("keys", *words)
        parts = [file.run(*command, *words) for command in IN_BUCKETS]
        if not isinstance(entries.get(path), bytes):
            fault = b"key not found" if in_bucket else b"bucket not found"
            want(got.err == b"error: " + fault + b"\n", "get", *words, "printed:", got)
        if not isinstance(entries.get(path), int):
            for result in [keys, *parts]:
                want(result.err == b"error: bucket not found\n", "there is no bucket", *words, ":", result)

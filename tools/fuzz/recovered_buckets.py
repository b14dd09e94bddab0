"""What holds of `get`, `keys` and `buckets` with `--recover`: they print parts of the recovered listing."""

from listings import paths_between
from options import draw_prefix
from program import want
from results import FORMS, lines_in, word_of, words_of

MOST_PATHS = 3


def missing_line(what, listed):
    """How a bucket or a key is reported that isn't in a recovered listing with this result."""
    lost = listed.err.removeprefix(b"error: ").rstrip(b"\n")
    return b"error: %b not found%b\n" % (what, b"; " + lost if lost else b"")


class Recovered:
    """What is recovered of a file under a meta."""

    def __init__(self, file, words, listed, entries):
        self.file, self.words, self.listed, self.entries = file, words, listed, entries

    def wants(self, command, path, out, err, *options):
        """Whether this is printed of a path, and reported. If nothing is, the status is 0."""
        result = self.file.run(command, "--recover", *self.words, *options, *words_of(self.file.draw, path))
        is_so = (result.status, result.out, result.err) == (int(err != b""), out, err)
        want(is_so, command, "--recover", *self.words, *options, word_of(path), "printed:", result)

    def compare_bucket(self, path):
        names = [it[-1] for it in self.entries if it[:-1] == path]
        inner = [it for it in names if isinstance(self.entries[path + (it,)], int)]
        form = self.file.draw.choice(list(FORMS))
        self.wants("buckets", path, lines_in(form, inner), self.listed.err, "--form", form)
        if path:
            self.wants("keys", path, lines_in(form, names), self.listed.err, "--form", form)
            prefix = draw_prefix(self.file.draw, names)
            begun = lines_in("hex", [it for it in names if it.startswith(prefix)])
            words = ["--form", "hex", "--parts", "hex", "--prefix", prefix.hex(), *(it.hex() for it in path)]
            result = self.file.run("keys", "--recover", *self.words, *words)
            want((result.out, result.err) == (begun, self.listed.err), "keys --recover", *self.words, *words, "printed:", result)

    def compare_no_bucket(self, path):
        fault = missing_line(b"bucket", self.listed)
        for command in ("buckets", "keys"):
            self.wants(command, path, b"", fault)

    def compare_value(self, path):
        form = self.file.draw.choice(list(FORMS))
        self.wants("get", path, lines_in(form, [self.entries[path]]), self.listed.err, "--form", form)

    def compare_no_value(self, path):
        in_bucket = not path[:-1] or isinstance(self.entries.get(path[:-1]), int)
        self.wants("get", path, b"", missing_line(b"key" if in_bucket else b"bucket", self.listed))

    def compare_path(self, path):
        item = self.entries.get(path)
        if not path or isinstance(item, int):
            self.compare_bucket(path)
        else:
            self.compare_no_bucket(path)
        if isinstance(item, bytes):
            self.compare_value(path)
        elif path:
            self.compare_no_value(path)


def compare_recovered_buckets(file, words, listed, entries):
    """What is printed of some paths is what the recovered listing has there, and as much is lost. `listed` is what `list
    --recover` prints, and `entries` what that says."""
    recovered = Recovered(file, words, listed, entries)
    paths = [*paths_between(file.draw, file.some(entries))]
    for path in [(), *file.draw.sample(paths, min(MOST_PATHS, len(paths)))]:
        recovered.compare_path(path)
    for path in [*filter(lambda it: isinstance(entries[it], int), file.some(entries))][:MOST_PATHS]:
        recovered.compare_path(path)

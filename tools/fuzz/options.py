"""What holds of the options of `list`, `keys`, `buckets` and `get` on a sound file: all print parts of one listing."""

import json

from program import want
from results import FORMS, entries_of, figures_of, info_of, lines_in, words_of, word_of

MOST_BUCKETS = 4
GREATEST = 2**64 - 1


def bytes_in(item):
    """The bytes that an item of JSON stands for."""
    return bytes.fromhex(item["hex"]) if isinstance(item, dict) else item.encode()


def line_of(text):
    """A line of the listing in hexadecimal, from its line of JSON."""
    member = json.loads(text)
    path = word_of(bytes_in(part) for part in member["path"])
    if "bucket" in member:
        return f"{path} bucket {member['bucket']}\n"
    return f"{path} = {bytes_in(member['value']).hex()}\n"


def lines_of_json(text):
    """The listing in hexadecimal that a listing as JSON stands for."""
    return "".join(map(line_of, text.decode().splitlines())).encode()


def json_hex_line(path, item):
    """The line of an entry as JSON in hexadecimal."""
    parts = ",".join(f'"{key.hex()}"' for key in path)
    end = f'"bucket":{item}' if isinstance(item, int) else f'"value":"{item.hex()}"'
    return f'{{"path":[{parts}],{end}}}\n'


def part_of(listing, bucket):
    """The lines of the listing whose paths begin with the path of a bucket."""
    depth = len(bucket)
    lines = zip(listing.splitlines(keepends=True), entries_of(listing))
    return b"".join(line for line, path in lines if path[:depth] == bucket)


def buckets_of(entries):
    return [path for path, item in entries.items() if isinstance(item, int)]


def compare_parts(file, listing, entries):
    """The listings of the outermost buckets, with the values among them, are the listing. That of any
    bucket is the lines with its path."""
    whole = b""
    outermost = {path: item for path, item in entries.items() if len(path) == 1}
    if len(outermost) <= 2 * MOST_BUCKETS:
        for path, item in outermost.items():
            is_bucket = isinstance(item, int)
            part = file.text("list", *words_of(file.draw, path)) if is_bucket else part_of(listing, path)
            whole += part
        want(whole == listing, "the listings of the outermost buckets aren't the listing")
    for bucket in file.some(buckets_of(entries))[:MOST_BUCKETS]:
        words = words_of(file.draw, bucket)
        part = part_of(listing, bucket)
        want(file.text("list", *words) == part, "list", *words)
        compare_rest(file, part, bucket)


def compare_rest(file, part, bucket):
    """The listing of a bucket from a path is all of it that isn't below that path."""
    paths = list(entries_of(part))
    near = file.draw.choice(paths)
    first = file.draw.choice([near, near + (b"\0",), near[:-1] + (near[-1] + b"\0",), (b"\0",), (b"\xff" * 41,)])
    lines = zip(part.splitlines(keepends=True), paths)
    rest = b"".join(line for line, path in lines if path >= first)
    words = ["--from", word_of(first), "--parts", "hex", *(key.hex() for key in bucket)]
    want(file.text("list", *words) == rest, "list", *words)


def compare_json(file, listing, entries):
    """The listing as JSON can be read back."""
    shown = file.text("list", "--form", "json")
    want(lines_of_json(shown) == listing, "list --form json isn't list")
    lines = "".join(json_hex_line(path, item) for path, item in entries.items())
    want(file.text("list", "--form", "json-hex") == lines.encode(), "list --form json-hex isn't list")
    for bucket in file.some(buckets_of(entries))[:1]:
        words = ["--form", "json", *words_of(file.draw, bucket)]
        want(lines_of_json(file.text("list", *words)) == part_of(listing, bucket), "list", *words)


def draw_prefix(draw, names):
    """What some of these keys begin with, or none."""
    name = draw.choice(names or [b"k"])
    kind = draw.randrange(5)
    if kind == 0:
        return draw.choice([b"", b"\0", b"\xff", b"\xff" * 41, name + b"\0"])
    return name[: draw.randint(1, len(name))] if kind < 4 else name


def compare_prefixes(file, entries):
    """The keys that begin with a prefix are those of all keys that do."""
    for bucket in file.some(buckets_of(entries))[:MOST_BUCKETS]:
        names = [path[-1] for path in entries if path[:-1] == bucket]
        prefix = draw_prefix(file.draw, names)
        form = file.draw.choice(list(FORMS))
        wanted = lines_in(form, [name for name in names if name.startswith(prefix)])
        words = ["--form", form, "--prefix", prefix.hex(), "--parts", "hex", *(key.hex() for key in bucket)]
        want(file.text("keys", *words) == wanted, "keys", *words)


def sizes_of(file, bucket):
    """The line of a bucket, from its figures."""
    text = file.text("stats", "--parts", "hex", *(key.hex() for key in bucket)).decode()
    figures = {name: int(number) for name, number in (line.rsplit(" ", 1) for line in text.splitlines())}
    used, allocated = (
        min(figures[f"branch {what}"] + figures[f"leaf {what}"] + figures["inline used"], GREATEST)
        for what in ("used", "allocated")
    )
    return f"{figures['keys']} {used} {allocated} {bucket[-1].hex()}\n"


def compare_sizes(file, entries):
    """The sizes of the buckets in a bucket are sums of the figures of each."""
    outer = [(), *file.some(buckets_of(entries))[:1]]
    for bucket in outer:
        inner = [path for path in buckets_of(entries) if path[:-1] == bucket]
        words = ["--sizes", "--form", "hex", "--parts", "hex", *(key.hex() for key in bucket)]
        shown = file.text("buckets", *words).decode().splitlines(keepends=True)
        want(len(shown) == len(inner), "buckets", *words, "has", len(shown), "lines")
        objects = [json.loads(line) for line in file.text("buckets", *words[:2], "json-hex", *words[3:]).splitlines()]
        lines = ["{keys} {used} {allocated} {name}\n".format(**size) for size in objects]
        want(lines == shown, "buckets --sizes --form json-hex isn't buckets", *words)
        for number in file.draw.sample(range(len(inner)), min(MOST_BUCKETS, len(inner))):
            want(shown[number] == sizes_of(file, inner[number]), "buckets", *words, ":", shown[number])


def compare_alone(file, entries):
    """A value without a line feed is the value with one, but for that."""
    values = [path for path, item in entries.items() if isinstance(item, bytes)]
    for path in file.some(values)[:MOST_BUCKETS]:
        form = file.draw.choice([*FORMS, "text", "json"])
        words = ["--form", form, *words_of(file.draw, path)]
        option = file.draw.choice(["-n", "--no-newline"])
        alone = file.text("get", option, *words)
        want(alone + b"\n" == file.text("get", *words), "get", option, *words)
        want(form != "json" or bytes_in(json.loads(alone)) == entries[path], "get --form json", *words)


def compare_figures(file):
    """The figures of `info` and `stats` as JSON are those of their lines."""
    for command, figures in (("info", info_of(file)), ("stats", figures_of(file))):
        shown = json.loads(file.text(command, "--form", "json"))
        want(shown == {name.replace(" ", "_"): number for name, number in figures.items()}, command, "--form json")


def compare_options(file, listing, entries):
    """All of these on a sound file."""
    compare_figures(file)
    compare_parts(file, listing, entries)
    compare_json(file, listing, entries)
    compare_prefixes(file, entries)
    compare_sizes(file, entries)
    compare_alone(file, entries)

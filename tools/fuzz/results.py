"""Files that the program is run on, and what it prints of them as data."""

import os

from program import want

PRINTABLE = range(0x20, 0x7F)
MOST_PATHS = 8
MOST_PAGES = 40


def is_printable(data):
    return all(byte in PRINTABLE for byte in data)


def mixed(data):
    """An item in the form that `--parts mixed` reads back."""
    return data if is_printable(data) and not data.startswith(b"0x") else b"0x" + data.hex().encode()


FORMS = {
    "bytes": lambda data: data,
    "hex": lambda data: data.hex().encode(),
    "printable": lambda data: data if is_printable(data) else data.hex().encode(),
    "mixed": mixed,
    "json-hex": lambda data: b'"%b"' % data.hex().encode(),
}


def entries_of(text):
    """The entries of a listing: for each path the bytes of the value, or the sequence of the bucket."""
    found = {}
    for line in text.decode().splitlines():
        path, kind, item = line.split(" ", 2)
        keys = tuple(bytes.fromhex(key) for key in path.split("/"))
        found[keys] = bytes.fromhex(item) if kind == "=" else int(item)
    return found


def word_of(path):
    return "/".join(key.hex() for key in path)


def named(path):
    """A path in hexadecimal and, if each part has bytes and all are printable, its text in brackets."""
    is_readable = all(key and is_printable(key) for key in path)
    return word_of(path) + (" (" + "/".join(key.decode() for key in path) + ")" if is_readable else "")


def words_of(draw, path):
    """The words for a path: in hexadecimal, mixed or, if possible, as text."""
    kind = draw.random()
    if all(map(is_printable, path)) and kind < 0.4:
        return ["--", *(key.decode() for key in path)]
    if kind < 0.7:
        return ["--parts", "mixed", "--", *(mixed(key).decode() for key in path)]
    return ["--parts", "hex", *(key.hex() for key in path)]


def lines_in(form, names):
    return b"".join(FORMS[form](name) + b"\n" for name in names)


def read(path):
    with open(path, "rb") as file:
        return file.read()


class File:
    """A file that the program is run on, with a folder for its copies."""

    def __init__(self, program, draw, path, folder):
        self.program = program
        self.draw = draw
        self.path = path
        self.folder = folder

    def run(self, command, *words):
        return self.program.run(command, self.path, *words)

    def text(self, command, *words):
        return self.program.text(command, self.path, *words)

    def some(self, things):
        things = list(things)
        return self.draw.sample(things, min(MOST_PATHS, len(things)))

    def copy(self, name):
        """The path for a copy, where there is no file yet."""
        path = os.path.join(self.folder, name)
        if os.path.exists(path):
            os.remove(path)
        return path


def info_of(file):
    """The numbers that `info` prints; the freelist is None if none was written."""
    lines = file.text("info").decode().splitlines()
    fields = dict(line.rsplit(" ", 1) for line in lines)
    return {name: None if number == "none" else int(number) for name, number in fields.items()}


def figures_of(file):
    lines = file.text("stats").decode().splitlines()
    return {name: int(number) for name, number in (line.rsplit(" ", 1) for line in lines)}


class Element:
    """An item of a branch or a leaf, as `page` prints it."""

    def __init__(self, line):
        key, kind, *rest = line.split(" ")
        self.key = bytes.fromhex(key)
        self.child = int(rest[0]) if kind == "->" else None
        self.value = bytes.fromhex(rest[0]) if kind == "=" else None
        self.root, self.sequence = map(int, rest) if kind == "bucket" else (None, None)


class Shown:
    """A page, as `page` prints it."""

    def __init__(self, text):
        lines = text.decode().splitlines()
        self.number, self.kind, self.items, self.overflow = (line.split(" ")[1] for line in lines[:4])
        self.lines = lines[4:]

    def row(self):
        overflow = "" if self.overflow == "0" else self.overflow
        return f"{self.number:<8} {self.kind:<10} {self.items:<6} {overflow:<6}"

    def elements(self):
        return [Element(line) for line in self.lines]

    def ids(self):
        return [int(line) for line in self.lines]


def shown_tree(file, info):
    """The pages that `page` shows from the root page on, each with the path of its bucket; nothing
    where there are many."""
    tree = []
    stack = [((), info["root"])]
    while stack:
        path, number = stack.pop()
        page = Shown(file.text("page", number))
        tree.append((path, page))
        if len(tree) > MOST_PAGES:
            return None
        want(page.kind in ("branch", "leaf"), "page", number, "of a sound tree is a", page.kind)
        for element in page.elements():
            if element.child is not None:
                stack.append((path, element.child))
            elif element.root:
                stack.append((path + (element.key,), element.root))
    return tree


def rows_of(text):
    """The rows of `pages`, each as its line, its number and its kind; and how many free pages lie
    past the end."""
    lines = text.decode().splitlines()[2:]
    past_end = 0
    if lines and lines[-1].endswith("past the end of the file"):
        past_end = int(lines.pop().split(" ")[0])
    return [(line, int(line.split()[0]), line.split()[1]) for line in lines], past_end

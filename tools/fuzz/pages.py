"""What `page`, `pages` and `stats` say of a sound file, compared with its listing and each other."""

from program import want
from results import Shown, figures_of, rows_of, word_of

FIRST_ROLES = ("branch", "leaf", "freelist")
# The letter of each kind on the map, which has so many a line.
LETTERS = {"meta": "M", "freelist": "F", "branch": "B", "leaf": "L", "free": "."}
LETTERS_A_LINE = 64


def compare_tree(tree, entries):
    """What `page` shows along the tree is what is listed, except what inline buckets hold."""
    rooted = {path for path, _ in tree}
    shown = {}
    for path, page in tree:
        for element in page.elements():
            if element.child is None:
                is_bucket = element.value is None
                shown[path + (element.key,)] = element.sequence if is_bucket else element.value
    listed = {path: item for path, item in entries.items() if path[:-1] in rooted}
    for path in listed.keys() | shown.keys():
        want(listed.get(path) == shown.get(path), "page and list differ at", word_of(path))


def compare_map(file, letters, past_end):
    """`pages --map` has these letters, and then how many free pages lie past the end, as `pages` has."""
    starts = range(0, len(letters), LETTERS_A_LINE)
    lines = [f"{start:<8} {letters[start : start + LETTERS_A_LINE]}\n" for start in starts]
    if past_end:
        lines.append(f"{past_end} free pages past the end of the file\n")
    want(file.text("pages", "--map").decode() == "".join(lines), "pages --map isn't pages:", lines)


def compare_pages(file, info, length):
    """Each page below the mark stands once in `pages`, with what `page` shows of it, and on the map; and those that
    are free are those of the freelist."""
    rows, past_end = rows_of(file.text("pages"))
    numbers, letters = [], ""
    shown = file.some(number for _, number, kind in rows if kind in FIRST_ROLES)
    for line, number, kind in rows:
        taken = int(line[8 + 1 + 10 + 1 + 6 + 1 :].strip() or 0)
        numbers += range(number, number + 1 + taken)
        letters += LETTERS[kind] + "+" * taken
        if number in shown:
            page = Shown(file.text("page", number))
            want(page.row() == line, "page", number, "and pages differ:", page.row(), line)
    compare_map(file, letters, past_end)
    begun = min(info["high water"], -(-length // info["page size"]))
    is_whole = len(numbers) == begun and numbers == list(range(begun))
    want(is_whole, "pages has other pages than those that begin in the file")
    want(past_end == info["high water"] - begun, "pages counts", past_end, "free pages past the end")
    want([kind for _, _, kind in rows][:2] == ["meta"] * 2, "pages has no metas at its beginning")
    if info["freelist"] is not None:
        ids = Shown(file.text("page", info["freelist"])).ids()
        free = [number for _, number, kind in rows if kind == "free"]
        want(len(ids) == len(free) + past_end, "the freelist has other ids than pages has free pages")
        within = [number for number in ids if number < begun]
        want(sorted(within) == free, "pages and the freelist differ")
    return [kind for _, _, kind in rows]


def compare_figures(file, info, entries, kinds, tree):
    """The figures are those of what is listed and, if `page` shows the tree, of its pages except the
    root bucket's own."""
    figures = figures_of(file)
    expected = {
        "buckets": sum(isinstance(item, int) for item in entries.values()),
        "keys": sum(len(path) > 1 for path in entries),
    }
    for kind in ("branch", "leaf"):
        pages = figures[f"{kind} pages"] + figures[f"{kind} overflow"]
        expected[f"{kind} allocated"] = pages * info["page size"]
        if tree:
            own = sum(page.kind == kind for path, page in tree if not path)
            expected[f"{kind} pages"] = kinds.count(kind) - own
    if tree:
        expected["inline buckets"] = sum(element.root == 0 for _, page in tree for element in page.elements())
    for name, number in expected.items():
        want(figures[name] == number, "stats prints", figures[name], name, "and not", number)

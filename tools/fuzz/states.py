"""What `states` prints, compared with what is recovered under each page size and root page that it names."""

import os
import re

from assumed import assumed
from program import want
from results import entries_of, info_of

PARTS = re.compile(
    rb"(\d+):(\d+) (?:everything lost|(\d+) pages lost, (\d+) buckets(?: from (\w+).* to (\w+).*)?, (\d+) keys)"
    rb"((?:; meta [01], txid \d+)*)"
)
PAGES_TRIED = 6
PAGE_SIZE = 4096


def recovered(file, page_size, root):
    """What is recovered under a page size and a root page: the number of losses, the names of the buckets in the root
    bucket, whether it has a value, and the numbers of values and of entries. None if the root page is lost."""
    result = file.run("list", "--recover", *assumed(page_size, root))
    if result.err.startswith(b"error: file refused"):
        return None
    lost = re.search(rb"pages lost: (\d+)", result.err)
    entries = entries_of(result.out).items()
    top = [(path, item) for path, item in entries if len(path) == 1]
    names = [path[0] for path, item in top if is_bucket(item)]
    values = sum(not is_bucket(item) for _, item in entries)
    return int(lost[1]) if lost else 0, names, len(names) < len(top), values, len(entries)


def is_bucket(item):
    return isinstance(item, int)


def compare_line(file, parts):
    """Compares a line with what is recovered there, and returns its place in the order."""
    page_size, root = int(parts[1]), int(parts[2])
    there = recovered(file, page_size, root)
    want((there is None) == (parts[3] is None), "states says of", page_size, root, "that it is lost or kept, and it isn't")
    if there is None:
        return True, 0, 0, page_size, root
    losses, names, _, values, entries = there
    told = [int(parts[number]) for number in (3, 4, 7)]
    want(told == [losses, len(names), values], "states prints", told, "and not", [losses, len(names), values])
    ends = [names[0].hex(), names[-1].hex()] if names else [None, None]
    want([it and it.decode() for it in parts.group(5, 6)] == ends, "states prints other names than", ends)
    return False, losses, -entries, page_size, root


def compare_page(file, page_size, root, places):
    """A page is the root page of a state exactly if what is recovered has buckets alone."""
    there = recovered(file, page_size, root)
    is_state = there is not None and bool(there[1]) and not there[2]
    want(((page_size, root) in places) == is_state, "page", root, "is or isn't a state, but that isn't what states says")


def compare_states(file):
    """What holds of the states of any file: the lines, their order, and that none is left out."""
    result = file.run("states")
    lines = [PARTS.fullmatch(line) for line in result.out.splitlines()]
    order = [compare_line(file, parts) for parts in lines]
    want(order == sorted(order), "states isn't in order")
    named = {(int(parts[1]), int(parts[2])) for parts in lines if parts[8]}
    places = {(page_size, root) for _, _, _, page_size, root in order}
    info = info_of(file) if file.run("info").is_ok() else None
    want(info is None or (info["page size"], info["root"]) in named, "states leaves out the active meta")
    page_size = info["page size"] if info else PAGE_SIZE
    pages = range(2, -(-os.path.getsize(file.path) // page_size))
    for root in file.draw.sample(pages, min(PAGES_TRIED, len(pages))):
        if (page_size, root) not in named:
            compare_page(file, page_size, root, places)

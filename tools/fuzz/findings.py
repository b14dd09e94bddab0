"""What `check` finds wrong, compared with what `page` says of the pages."""

import re

from program import want
from results import Shown, shown_tree

FINDING = re.compile(r"pages? (\d+)(?: to (\d+))?: (.*)")
# Findings of a page itself, by the tests of docs/FORMAT.md: of its header and span, and after these.
SPAN_FAULTS = {"out of range", "cut off", "wrong page number", "invalid type"}
ELEMENT_FAULTS = {
    "element past the page", "element data out of order", "key length refused",
    "value length refused", "leaf flags refused", "bucket value too short", "inline page refused",
    "bucket in an inline bucket",
}
# Findings of a good page's keys or elements.
KEY_FAULTS = {
    "keys not rising", "key below its branch key", "key not below the next branch key", "empty branch",
}
ACCOUNT_FAULTS = {"freed twice", "reachable freed", "unreachable unfreed", "free page out of range"}


def findings_of(text):
    """The findings that `check` prints: of each the first page, the last and the words."""
    *lines, count = text.decode().splitlines()
    want(count == f"{len(lines)} errors found", "check counts", count, "of", len(lines))
    found = [FINDING.fullmatch(line).groups() for line in lines]
    return [(int(first), int(last or first), words) for first, last, words in found]


def compare_bad_page(file, info, number, words):
    """Compares the first finding of `check` with what `page` says of that page."""
    result = file.run("page", number)
    if words in KEY_FAULTS:
        want(result.is_ok(), "check says", words, "of page", number, "and page", result)
        compare_keys_found(Shown(result.out), words)
    elif words == "invalid type" and (result.is_ok() or number == info["freelist"]):
        compare_kind(info, number, result)
    elif words in SPAN_FAULTS | ELEMENT_FAULTS:
        fault = f"error: page {number}: {words}\n".encode()
        want(result.err == fault, "check says", words, "of page", number, "and page", result)


def compare_kind(info, number, result):
    """A page of another kind than it should be, which is a good one for `page` or, in the place of
    the freelist, one whose elements aren't looked at."""
    if result.is_ok():
        kind = Shown(result.out).kind
        is_so = kind in ("freelist", "meta") or number == info["freelist"]
    else:
        faults = ELEMENT_FAULTS | {"invalid type"}
        is_so = result.err.decode() in {f"error: page {number}: {words}\n" for words in faults}
    want(is_so, "check says invalid type of page", number, "and page", result)


def compare_keys_found(page, words):
    """A branch that is called empty is so, and keys that are said not to rise don't, unless they
    are those of an inline bucket."""
    elements = page.elements() if page.kind in ("branch", "leaf") else None
    want(elements is not None, words, "is reported of a", page.kind)
    if words == "empty branch":
        want(page.kind == "branch" and not elements, "a branch is called empty, which isn't")
    if words == "keys not rising":
        keys = [element.key for element in elements]
        rise = all(before < key for before, key in zip(keys, keys[1:]))
        want(not rise or any(element.root == 0 for element in elements), "keys rise on", page.number)


def span_of(page):
    """The numbers of the pages of a span, which lies in the file."""
    return range(int(page.number), int(page.number) + 1 + int(page.overflow))


def runs_between(numbers, first, end):
    """The longest runs of what lies from the first number to before the end and is none of these
    numbers, each as its first and its last. The end may be as large as a mark can be."""
    runs = []
    for number in sorted(number for number in numbers if first <= number < end) + [end]:
        if first < number:
            runs.append((first, number - 1))
        first = number + 1
    return runs


def compare_accounts(file, info, findings):
    """Findings of the freelist are those of the ids that `page` shows on it and, where the tree has
    few pages, of the pages that `page` shows."""
    page = Shown(file.text("page", info["freelist"]))
    ids = page.ids()
    within = range(2, info["high water"])
    twice = {number for number in ids if ids.count(number) > 1 and number in within}
    expected = {
        "freed twice": [(number, number) for number in sorted(twice)],
        "free page out of range": [(number, number) for number in sorted(set(ids)) if number not in within],
    }
    tree = shown_tree(file, info)
    if tree:
        used = set(span_of(page)).union(*(span_of(shown) for _, shown in tree))
        expected["reachable freed"] = [(number, number) for number in sorted(used & set(ids))]
        expected["unreachable unfreed"] = runs_between(used | set(ids), within.start, within.stop)
    for words, pages in expected.items():
        reported = [(first, last) for first, last, said in findings if said == words]
        want(reported == pages, words, "is reported of", reported, "and not of", pages)
    firsts = [first for first, _, _ in findings]
    want(firsts == sorted(firsts), "findings stand out of order")

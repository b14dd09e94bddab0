"""What holds of the output on any file. Only the program's own results are compared."""

import os

from assumed import compare_assumed
from copies import compare_copy, compare_prefixes, compare_slot
from findings import ACCOUNT_FAULTS, compare_accounts, compare_bad_page, findings_of
from for_bbolt import compare_for_bbolt, compare_refused_for_bbolt
from listings import compare_keys, compare_missing, compare_order, compare_rests, compare_values
from loads import compare_loads
from options import compare_options
from pages import compare_figures, compare_pages, compare_tree
from program import want
from recoveries import compare_pages_lost, compare_recovery, compare_refused
from results import entries_of, info_of, read, shown_tree
from snapshots import compare_hash, compare_snapshot
from states import compare_states
from stores import READING, compare_store, compare_unread_store

UNDER_ALL = ("pages", "buckets", "stats", "list")


def compare_sound(file):
    """What holds of a file that `check` accepts. Returns its listing."""
    listing = file.text("list")
    entries = entries_of(listing)
    info = info_of(file)
    compare_order(listing)
    compare_rests(file, listing)
    compare_keys(file, entries)
    compare_values(file, entries)
    compare_missing(file, entries)
    compare_options(file, listing, entries)
    tree = shown_tree(file, info)
    if tree:
        compare_tree(tree, entries)
    kinds = compare_pages(file, info, os.path.getsize(file.path))
    compare_figures(file, info, entries, kinds, tree)
    compare_copy(file, listing)
    compare_prefixes(file, os.path.join(file.folder, "copy.db"))
    compare_snapshot(file, listing)
    compare_for_bbolt(file)
    compare_loads(file, listing)
    compare_store(file, entries)
    for slot in (0, 1):
        listed = compare_slot(file, slot)
        is_same = listed.is_ok() and listed.out == listing
        want(slot != info["meta"] or is_same, "list --meta", slot, "isn't list")
    return listing


def compare_refusals(file, fault):
    """Each command that needs a sound file is refused alike, and a copy is empty."""
    copy = file.copy("copy.db")
    results = [file.run(command) for command in UNDER_ALL]
    results += [file.run("keys", "00"), file.run("get", "00"), file.run("compact", "-o", copy)]
    results += [file.run("buckets", "--sizes"), file.run("list", "--form", "json"), file.run("list", "00")]
    results += [file.run(*words) for words in READING]
    for result in results:
        want(result.status == 1 and result.err == fault, "reported is", result, "and not", fault)
    want(read(copy) == b"", "the copy of what is refused isn't empty")


def compare_unsound(file, checked):
    """What holds of a file that `check` refuses with findings."""
    first_line = checked.out.splitlines()[0]
    info = info_of(file)
    compare_refusals(file, b"error: file refused: " + first_line + b"\n")
    findings = findings_of(checked.out)
    number, _, words = findings[0]
    is_of_accounts = words in ACCOUNT_FAULTS
    want(is_of_accounts or len(findings) == 1, "more than one finding of the trees")
    if is_of_accounts:
        compare_accounts(file, info, findings)
    else:
        compare_bad_page(file, info, number, words)
    for slot in (0, 1):
        listed = compare_slot(file, slot)
        if slot == info["meta"] and is_of_accounts:
            want(listed.is_ok(), "the trees are sound, but not under their meta:", listed)
        elif slot == info["meta"] and not listed.is_ok():
            want(listed.err == b"error: file refused: " + first_line + b"\n", "reported is", listed)


def compare_closed(file, checked):
    """Each command refuses a file without a valid meta alike."""
    compare_refusals(file, checked.err)
    compare_refused(file, [], checked.err)
    for words in (["info"], ["page", 0], ["list", "--meta", 0], ["list", "--meta", 1], ["check", "--all"]):
        result = file.run(*words)
        want(result.status == 1 and result.err == checked.err, *words, "printed:", result)


def compare_limits(file):
    """No page is shown at the mark or above it, nor one that begins past the file's end."""
    info = info_of(file)
    mark, page_size = info["high water"], info["page size"]
    past_end = os.path.getsize(file.path) // page_size + 1
    for number, words in ((mark, "out of range"), (past_end, "cut off")):
        words = words if number < mark else "out of range"
        result = file.run("page", number)
        want(result.err == f"error: page {number}: {words}\n".encode(), "page", number, "printed:", result)


def compare(file):
    """Compares all results on a file. Returns what `check` says of it, and its listing if it is sound."""
    before = read(file.path)
    checked = file.run("check")
    listing = None
    if checked.is_ok():
        kind, listing = "accepted", compare_sound(file)
    elif checked.err:
        kind = "without a meta"
        compare_closed(file, checked)
    else:
        kind = "refused"
        compare_unsound(file, checked)
    if not checked.is_ok():
        compare_unread_store(file, file.run("check", "--all"))
        compare_refused_for_bbolt(file, checked)
    compare_hash(file)
    compare_hash(file, "--all")
    if not checked.err:
        compare_limits(file)
        compare_recovery(file, checked)
    compare_assumed(file)
    compare_states(file)
    if listing is not None:
        compare_pages_lost(file, listing)
    want(read(file.path) == before, "the file was changed")
    return kind, listing

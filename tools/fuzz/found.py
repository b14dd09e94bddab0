"""What holds of `check`, `list` and `compact` with `--lost-and-found`, under each meta."""

import re

from program import want
from results import named, read

BUCKET = b"lost+found".hex().encode()
PAGE = re.compile(rb"%b/([0-9a-f]{32}) bucket 0" % BUCKET)
NAMED = re.compile(rb"^page (\d+): nothing leads to it", re.M)
# The lines of entries that a repair doesn't copy, and the bucket that it makes.
UNCOPIED = re.compile(rb"^(?:key ([0-9a-f]*): not a revision|revision (\d+)\.(\d+): not a record); not copied$", re.M)
NONE_BACK = b"0 revisions put back, 0 left out\n"
MADE = b"meta".hex().encode() + b" bucket 0"
KEYS = re.compile(r"keys from ([0-9a-f]+)(?: \(.*?\))? to ([0-9a-f]+)(?: \(.*\))?")


def pages_in(lines):
    """The numbers of the pages that have a bucket in `lost+found`, among these lines of a listing."""
    return [int(bytes.fromhex(page.group(1).decode())) for line in lines if (page := PAGE.fullmatch(line))]


def compare_key_names(printed):
    """The lines of found pages have the texts of their keys."""
    for line in printed.splitlines():
        if NAMED.match(line):
            keys = KEYS.search(line.decode())
            first, last = ([bytes.fromhex(key)] for key in keys.groups())
            want(keys[0] == f"keys from {named(first)} to {named(last)}", "other texts of keys:", line)


def compare_found(file, words):
    """The copy of what is recovered and found is sound, and lists what `list` prints. Without the bucket
    `lost+found` this is what is recovered. `check` names the pages that have a bucket there. Or both
    commands refuse the file alike."""
    copy = file.copy("joined.db")
    copied = file.run("compact", "--lost-and-found", "-o", copy, *words)
    listed = file.run("list", "--lost-and-found", *words)
    checked = file.run("check", "--lost-and-found", *words)
    compare_key_names(checked.out)
    pages = [int(number) for number in NAMED.findall(checked.out)]
    if copied.err:
        want(listed.out == b"" and listed.err == copied.err, "list and compact refuse the file in two ways:", listed)
        want(read(copy) == b"", "the copy of what is refused isn't empty")
        want(not pages or copied.err == b"error: lost+found exists\n", "pages are found, and not listed:", pages)
        return
    want(file.program.text("check", copy) == b"OK\n", "the copy with what is found isn't sound")
    want(file.program.text("list", copy) == listed.out, "the copy with what is found lists other things")
    lines = listed.out.splitlines()
    want(pages_in(lines) == pages, "check names", pages, "and list has", pages_in(lines))
    own = [line for line in lines if not pages or not line.startswith(BUCKET)]
    want(own == file.run("list", "--recover", *words).out.splitlines(), "what is recovered isn't listed with what is found")


def not_copied(printed):
    """The pattern of the lines of a listing that a repair doesn't copy: those of the entries that it names, and of what is in them."""
    keys = [key or b"%016x5f%016x(?:74)?" % (int(main), int(sub)) for key, main, sub in UNCOPIED.findall(printed)]
    return re.compile(b"%b/(?:%b)[ /]" % (b"key".hex().encode(), b"|".join(keys)) if keys else rb"\Z.")


def compare_repaired(file, words):
    """The copy of the repaired listing is sound and has everything that is recovered, except for what the repair names. Repairing
    it again changes nothing. Or the file is refused, and the copy is empty."""
    copy, again = file.copy("repaired.db"), file.copy("repaired_again.db")
    repaired = file.run("etcd-repair", "-o", copy, *words)
    compare_searched(file, words, repaired, copy)
    if repaired.err:
        want(read(copy) == b"", "the copy of what is refused isn't empty")
        return
    want(file.program.text("check", copy) == b"OK\n", "the repaired copy isn't sound")
    listed, uncopied = file.program.text("list", copy).splitlines(), not_copied(repaired.out)
    recovered = file.run("list", "--recover", *words).out.splitlines()
    kept = {line for line in recovered if not uncopied.match(line)}
    want(kept <= {*listed}, "the repaired copy lacks", kept - {*listed})
    want(not {*recovered} - kept & {*listed}, "the repaired copy has what etcd can't read")
    want(any(line.startswith((MADE[:-1], b"%b = " % MADE.split()[0])) for line in listed), "the repaired copy has no meta")
    want(file.program.text("etcd-repair", "-o", again, copy).startswith(NONE_BACK), "a repaired copy is repaired")
    want(read(again) == read(copy), "a repaired copy is changed")
    if repaired.status == 0:
        compare_plain(file, words, copy, listed)


def compare_plain(file, words, copy, listed):
    """The repair of an undamaged file is the copy for bbolt, unless it has a bucket `meta` more."""
    plain = file.copy("for_bbolt.db")
    file.run("compact", "--recover", "--for-bbolt", "-o", plain, *words)
    own = file.program.text("list", plain).splitlines()
    if own == listed:
        want(read(plain) == read(copy), "of an undamaged file etcd-repair doesn't make the copy for bbolt")
    else:
        want({*listed} == {*own, MADE} and MADE not in own, "an undamaged file is repaired")


def compare_searched(file, words, repaired, copy):
    """With `--search` the same is printed and written if something is lost. Otherwise at least the same is kept."""
    searched = file.copy("searched.db")
    result = file.run("etcd-repair", "--search", "-o", searched, *words)
    if b"; lost: " in repaired.out or (repaired.err and result.err):
        want((result.status, result.out, result.err) == (repaired.status, repaired.out, repaired.err), "--search printed:", result)
        want(read(searched) == read(copy), "--search changes a repair")
    elif not repaired.err:
        kept = file.program.text("list", copy).splitlines()
        lacking = {*kept} - {*file.program.text("list", searched).splitlines()}
        want(not lacking, "--search loses", lacking)

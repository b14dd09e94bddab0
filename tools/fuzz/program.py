"""Runs the program, and tests of each run what holds of all."""

import re
import subprocess

SECONDS = 10

HEX = rb"[0-9a-f]"
ENTRY = rb"%b+(?:/%b+)*(?: = %b*| bucket \d+)\n" % (HEX, HEX, HEX)
JSON_ENTRY = rb'\{"path":\[.+\],(?:"value":.+|"bucket":\d+)\}\n'
BAD_HASH = rb"snapshot hash (?:cut off|differs)"
HASH_FAULT = rb"(?:snapshot hash missing|%b)\n" % BAD_HASH
ITEM = rb"(?:%b+ -> \d+|%b+ = %b*|%b+ bucket \d+ \d+|\d+)\n" % (HEX, HEX, HEX, HEX)
FINDING = rb"pages? \d+(?: to \d+)?: [a-z' ]+"
FOR_BBOLT = rb"meta [01]: (?:not taken by|txid too large for) bbolt"
# The text of a path or a key after its hexadecimal.
NAME = rb"(?: \([ -~]+\))?"
LOSS = rb"%b; lost: (?:everything|(?:root bucket|bucket %b+(?:/%b+)*%b)(?:, keys from %b*%b(?: to below %b+%b)?)?)\n" % (
    FINDING, HEX, HEX, NAME, HEX, NAME, HEX, NAME,
)
FIGURES = [
    "buckets", "inline buckets", "inline used", "keys", "depth", "branch pages", "branch overflow",
    "branch allocated", "branch used", "leaf pages", "leaf overflow", "leaf allocated", "leaf used",
]
STATE = (
    rb"\d+:\d+ (?:everything lost|\d+ pages lost, \d+ buckets(?: from %b+%b to %b+%b)?, \d+ keys)"
    rb"(?:; meta 0, txid \d+)?(?:; meta 1, txid \d+)?\n"
) % (HEX, NAME, HEX, NAME)
TABLE = rb"ID       TYPE       ITEMS  OVRFLW\n={8} ={10} ={6} ={6}\n"
MAP_LINE = rb"\d+ +[MFBL+.]{1,64}\n"
ROW = rb"\d+ +(?:meta|freelist|branch|leaf|free) +\d* +\d* *\n"
PAST_END = rb"(?:\d+ free pages past the end of the file\n)?"

# What etcd would report. Of a store with entries that aren't revisions there is no hash.
STATUS = (
    rb"revision \d+\nnewest \d+\ncompacted \d+\nkeys \d+\nrevisions \d+\nconsistent index (?:\d+|none)\nterm (?:\d+|none)\nhash %b\n"
)
# What each command prints if it succeeds; names, keys and values are compared whole.
TEXTS = {
    "info": rb"page size \d+\nmeta [01]\ntxid \d+\nroot \d+\nsequence \d+\n"
    rb"freelist (?:\d+|none)\nhigh water \d+\n",
    "page": rb"page \d+\ntype (?:branch|leaf|meta|freelist)\nitems \d+\noverflow \d+\n(?:%b)*" % ITEM,
    "pages": rb"(?:%b(?:%b)*|(?:%b)+)%b" % (TABLE, ROW, MAP_LINE, PAST_END),
    "check": rb"OK\n",
    "states": rb"(?:%b)+" % STATE,
    "etcd-check": rb"OK\n",
    "etcd-status": STATUS % rb"\d+",
    "stats": b"".join(figure.encode() + rb" \d+\n" for figure in FIGURES),
    "list": rb"(?:%b)*" % ENTRY,
    "compact": rb"\d+ -> \d+ bytes\n",
    "load": rb"\d+ -> \d+ bytes\n",
    "etcd-repair": rb"\d+ revisions put back, \d+ left out\n\d+ -> \d+ bytes\n",
}
# And what it prints as JSON.
JSON_TEXTS = {
    "info": rb'\{"page_size":\d+,"meta":[01],"txid":\d+,"root":\d+,"sequence":\d+,'
    rb'"freelist":(?:\d+|null),"high_water":\d+\}\n',
    "stats": rb"\{%b\}\n" % b",".join(rb'"%b":\d+' % figure.replace(" ", "_").encode() for figure in FIGURES),
    "list": rb"(?:%b)*" % JSON_ENTRY,
}
LOSSES = rb"(?:%b)+" % LOSS
FOUND = rb"(?:page \d+: nothing leads to it; found: \d+ entries, \d+ of them buckets, keys from %b+%b to %b+%b\n)*" % (
    HEX, NAME, HEX, NAME,
)
FINDINGS = rb"(?:(?:%b|%b)\n)+\d+ errors found\n" % (FOR_BBOLT, FINDING)
# What `check` finds, or what is lost, and the gaps of what is kept.
GAPS = rb"(?:page \d+: gap (?:before|after) %b+%b\n)*" % (HEX, NAME)
FAULTY = rb"(?:(?:(?:%b|%b)\n)*|%b)%b" % (FOR_BBOLT, FINDING, LOSSES, GAPS)
META_FAULT = rb"file too short|invalid database|version mismatch|checksum error|page size refused"
META_LINE = rb"meta [01]: (?:%b)" % META_FAULT
OTHER_META = META_LINE + rb"\n"
# What the output of a recovery may lack.
SHORTFALL = rb"(?:pages lost: [1-9]\d*(?:; %b)?|%b)" % (META_LINE, META_LINE)
MAYBE_LOST = rb"(?:; %b)?" % SHORTFALL
REFUSED = rb"file refused: " + FINDING
REVISION = rb"revisions? \d+(?:\.\d+)?"
STORE_FAULT = (
    rb"bucket \w+: missing|key %b*: not a revision|%b: (?:not a record|record of revision \d+)"
    rb"|%b(?: to \d+(?:\.\d+)?)?: missing|%b of .*: (?:one before it is missing|lease %b+ is missing)"
) % (HEX, REVISION, REVISION, REVISION, HEX)

# What each command reports of a file with a valid meta if it fails.
FAULTS = {
    "page": FINDING,
    "pages": REFUSED,
    "states": rb"no state found",
    "buckets": REFUSED + rb"|bucket not found" + MAYBE_LOST,
    "keys": REFUSED + rb"|bucket not found" + MAYBE_LOST,
    "get": REFUSED + rb"|(?:bucket|key) not found" + MAYBE_LOST,
    "stats": REFUSED + rb"|bucket not found",
    "etcd-revisions": REFUSED + rb"|bucket not found",
    "etcd-keys": REFUSED + rb"|bucket not found|revision compacted",
    "etcd-get": REFUSED + rb"|bucket not found|revision compacted|key not found",
    "etcd-status": REFUSED + rb"|bucket not found|revision compacted",
    "list": REFUSED + rb"|bucket not found|lost\+found exists",
    "compact": REFUSED + rb"|lost\+found exists|" + BAD_HASH,
    "etcd-repair": REFUSED + rb"|key is not a bucket|bucket not found",
    "load": rb"line \d+: (?:not a line of a listing|path not rising|no bucket above|cut off)",
}

OTHERS = rb"error: not revisions: [1-9]\d*\n"
LOST = rb"error: %b\n" % SHORTFALL
# The entries that a repair doesn't copy, and which revisions may be missing.
NOT_COPIED = (
    rb"(?:(?:key [0-9a-f]*: not a revision|revision \d+\.\d+: not a record); not copied\n)*"
    rb"(?:revisions up to \d+ may be missing\n|any revision may be missing\n)?"
)

# What is printed with status 1, on standard output and on standard error.
FAILED = {
    "check": (FINDINGS, b""),
    "etcd-check": (rb"(?:(?:%b)?%b|(?:(?:%b)\n)+)[1-9]\d* errors found\n" % (OTHER_META, FAULTY, STORE_FAULT), b""),
    "etcd-revisions": (rb"(?s:.*)", OTHERS),
    "etcd-keys": (rb"(?s:.*)", OTHERS),
    "etcd-get": (rb"(?s:.*)", OTHERS),
    "etcd-status": (STATUS % b"none", OTHERS),
    "check --all": (rb"(?:%b)?%b[1-9]\d* errors found\n" % (OTHER_META, FAULTY), b""),
    **{f"{command} --recover": (rb"(?s:.*)", LOST) for command in ("buckets", "keys", "get")},
    "list --recover": (TEXTS["list"] + b"|" + JSON_TEXTS["list"], LOST),
    "compact --recover": (rb"(?:%b\n)?(?:%b)?(?:%b)?%b" % (BAD_HASH, OTHER_META, LOSSES, TEXTS["compact"]), b""),
    "check --lost-and-found": (rb"(?:%b)?%b%b[1-9]\d* errors found\n" % (OTHER_META, FAULTY, FOUND), b""),
    "list --lost-and-found": (TEXTS["list"], LOST),
    "etcd-repair": (rb"(?:%b\n)?(?:%b)?(?:%b)?%b\d+ revisions put back, \d+ left out\n%b" % (BAD_HASH, OTHER_META, LOSSES, NOT_COPIED, TEXTS["compact"]), b""),
    "compact --lost-and-found": (rb"(?:%b\n)?(?:%b)?(?:%b)?%b%b" % (BAD_HASH, OTHER_META, LOSSES, FOUND, TEXTS["compact"]), b""),
}


class Difference(Exception):
    """What doesn't hold of a file."""


# How a failed comparison ends: a result may also have a form that can't be read.
FAILURES = (Difference, LookupError, ValueError)


def want(is_so, *what):
    if not is_so:
        raise Difference(" ".join(str(part) for part in what))


class Result:
    """What a run printed, and its status."""

    def __init__(self, status, out, err):
        self.status = status
        self.out = out
        self.err = err

    def is_ok(self):
        return self.status == 0

    def __repr__(self):
        return f"status {self.status}, {self.out[-300:]!r}, {self.err[-300:]!r}"


class Program:
    """The program, with the number of its runs."""

    def __init__(self, path):
        self.path = path
        self.runs = 0

    def ask(self, words):
        """What the program prints for these words."""
        self.runs += 1
        try:
            ended = subprocess.run([self.path, *words], capture_output=True, timeout=SECONDS, close_fds=False)
        except subprocess.TimeoutExpired:
            raise Difference(*words, "didn't end within", SECONDS, "seconds") from None
        return Result(ended.returncode, ended.stdout, ended.stderr)

    def run(self, *words):
        """The result of these words: status 0 with a text, or 1 with a fault or with findings."""
        result = self.ask([str(word) for word in words])
        want(is_stated(words, result), *words, "printed:", result)
        return result

    def text(self, *words):
        """What these words print. They must not fail."""
        result = self.run(*words)
        want(result.is_ok(), *words, "printed:", result)
        return result.out


def form_of(words):
    """The command of these words, with the option that changes what it prints if it fails."""
    option = next((word for word in words if word in ("--all", "--recover", "--lost-and-found")), None)
    return f"{words[0]} {option}" if option else words[0]


def text_form(words):
    """The form of what these words print if they succeed, or nothing if it is compared whole."""
    is_json = words[0] in JSON_TEXTS and ("json" in words or "json-hex" in words)
    return (JSON_TEXTS if is_json else TEXTS).get(words[0])


def without_hash(words, result):
    """The result without the line of a snapshot's hash, which `check --etcd-snapshot` may have first."""
    line = re.match(HASH_FAULT, result.out) if "--etcd-snapshot" in words and words[0] == "check" else None
    if line is None:
        return result
    rest = result.out[line.end() :]
    is_alone = rest == b"1 errors found\n"
    return Result(0 if is_alone else result.status, b"OK\n" if is_alone else rest, result.err)


def is_stated(words, result):
    """Whether the result has a form that is documented for the command."""
    command = words[0]
    result = without_hash(words, result)
    if result.status == 0:
        form = text_form(words)
        return result.err == b"" and (form is None or re.fullmatch(form, result.out) is not None)
    if result.status != 1:
        return False
    if form_of(words) in FAILED:
        out, err = FAILED[form_of(words)]
        if re.fullmatch(out, result.out) and re.fullmatch(err, result.err):
            return True
    faults = META_FAULT + b"|" + FAULTS.get(command, META_FAULT)
    return result.out == b"" and re.fullmatch(rb"error: (?:%b)\n" % faults, result.err) is not None

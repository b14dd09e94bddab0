"""The command lines of docs/GUIDE.md that are no examples, and how they are run.

They have no `$ ` before them, but words that stand for something, such as FILE. Some are in sentences."""

import os
import re
import shutil
import subprocess
import tempfile
from dataclasses import dataclass, field

from run_examples import blocks

GUIDE = "docs/GUIDE.md"
# The headings whose lines tools/etcd/try_guide.py runs, since they need a server.
BY_ETCD = ["etcd after a recovery", "etcd's log"]
# It runs these, too, which are in sentences: when the user is there, by the user of the new cluster, on three members (with
# the member to remove and to add), and where etcd's quota is used up.
ENABLE = "etcdctl auth enable"
REQUESTS = [
    "etcdctl endpoint health",
    "etcdctl put single9 v49",
    "etcdctl snapshot save FILE",
    "etcdctl member update ID --peer-urls=URL",
]
HASHES = "etcdctl endpoint hashkv --cluster"
REMOVE, ADD = "etcdctl member remove", "etcdctl member add"
MAKE_ROOM = ["etcdctl compact REVISION", "etcdctl defrag", "etcdctl alarm disarm"]
SPANS_BY_ETCD = [ENABLE, *REQUESTS, HASHES, REMOVE, ADD, *MAKE_ROOM]
# The heading of the tables of messages, and what they explain: tools/bbolt/messages.py and tools/etcd/messages.py have
# them printed. The last table has those of this program.
MESSAGES = "What a program printed"
MESSAGES_BY_BBOLT = [
    "invalid database",
    "checksum error",
    "version mismatch",
    "file size too small",
    "page N already freed",
    "invalid page type",
    "Page expected to be: N, but self identifies as M",
    "unexpected fault address",
    "SIGBUS",
    "parent must have at least 2 children",
    "failed to get all reachable pages",
]
MESSAGES_BY_ETCD = [
    "failed to unmarshal mvccpb.KeyValue",
    "cannot unmarshal event",
    "range failed to find revision pair",
    "range cannot find rev",
    "failed to find database snapshot file",
    "snapshot file integrity check failed",
    "mvcc: database space exceeded",
]
# What a command in a sentence begins with.
PROGRAMS = r"(?:luntsegi|etcdctl|etcdutl|systemctl|man|cp|mv|rm|ls|dd|grep|sort|sed|printf|flock) "
# How long the lines of a block may take.
SECONDS = 100


class WrongLine(Exception):
    """A line of the guide doesn't do what is expected of it, or nothing is expected of it."""


def read_guide():
    with open(GUIDE, encoding="utf-8") as file:
        text = file.read()
    if "```" in text:
        raise WrongLine("there are lines between backquotes: indent them")
    return text


def plain_blocks():
    """The blocks of such lines, by the heading above them."""
    found = {}
    for part in re.split(r"(?m)^#+ ", read_guide()):
        heading, _, body = part.partition("\n")
        plain = [re.split(r"(?m)^\$ ", block)[0].splitlines() for block in blocks(body)]
        found[heading] = [lines for lines in plain if lines]
    return {heading: plain for heading, plain in found.items() if plain}


def spans():
    """The commands that are in sentences, each once."""
    sentences = re.sub(r"(?m)^ {4}.*$", "", read_guide())
    return [span for span in dict.fromkeys(re.findall(r"`([^`\n]+)`", sentences)) if re.match(PROGRAMS, span)]


def messages():
    """The texts of bbolt and of etcd that the guide explains: those in the first column of its first two tables."""
    body = re.search(rf"(?ms)^#+ {MESSAGES}\n(.*?)^#", read_guide())[1]
    tables = re.findall(r"(?m)(?:^\|.*\n)+", body)[:2]
    return [
        text for table in tables for row in table.splitlines()[2:] for text in re.findall("`([^`]+)`", row.split(" | ")[0])
    ]


def text_pattern(message):
    """The pattern of a message, in which N and M are numbers."""
    return re.compile(re.sub(r"\b[NM]\b", r"\\d+", re.escape(message)))


def refuse_unknown(wanted, lines):
    """Refuses a table that wants something of a line that the guide doesn't have there."""
    unknown = set(wanted) - set(lines)
    if unknown:
        raise WrongLine(f"no such line is there: {', '.join(sorted(unknown))}")


def add_programs(folder, program):
    """Makes a folder of the programs that aren't as on the machine: `luntsegi`; `systemctl`, which does nothing; and
    `etcdutl`, if etcd is too old to have it: then etcdctl does the same."""
    os.mkdir(folder)
    os.symlink(os.path.abspath(program), os.path.join(folder, "luntsegi"))
    add_script(os.path.join(folder, "systemctl"), '[ "$*" = "stop SERVICE" ]')
    if not shutil.which("etcdutl"):
        add_script(os.path.join(folder, "etcdutl"), 'exec etcdctl "$@"')


def add_script(path, line):
    with open(path, "w", encoding="utf-8") as file:
        file.write(f"#!/bin/sh\n{line}\n")
    os.chmod(path, 0o755)


@dataclass(frozen=True)
class Section:
    """What is run under a heading."""

    # The example that FILE is a copy of, and which of its pages are overwritten with zeros.
    example: str
    lost_pages: tuple[int, ...] = ()
    # What STATE stands for.
    state: str = ""
    # The lines of which a status and a text are wanted: a pattern that they begin with.
    wanted: dict[str, str] = field(default_factory=dict)
    # What is run before the lines and, to see what they have done, after them.
    before: list[str] = field(default_factory=list)
    after: list[str] = field(default_factory=list)


class Room:
    """A folder in which lines are run. Their words are replaced first."""

    def __init__(self, folder, programs, words):
        self.folder = folder
        self.words = words
        kept = {name: value for name, value in os.environ.items() if not name.startswith("ETCD")}
        self.environment = dict(kept, PATH=programs + os.pathsep + os.environ["PATH"], LC_ALL="C")

    def replaced(self, line):
        for word, value in self.words.items():
            line = re.sub(rf"(?<!\w){re.escape(word)}(?!\w)", value, line)
        return line

    def run(self, lines, wanted):
        """Runs lines, and returns what each prints, on both streams. Its status and that must match the pattern that is
        wanted of the line. If there is none, the status must be 0, and no error may be printed."""
        ended = self.run_all([self.replaced(line) for line in lines])
        for line, (status, printed) in zip(lines, ended):
            pattern = wanted.get(line, r"0 (?!.*error: )")
            if not re.match(pattern, f"{status} {printed}", re.DOTALL):
                raise WrongLine(f"{line}\nstatus {status}, not as {pattern!r}:\n{printed}")
        return [printed for _, printed in ended]

    def run_all(self, lines):
        """Runs lines by one sh, so that a `cd` holds for those after it. Returns the status and the text of each."""
        with tempfile.TemporaryDirectory() as kept:
            names = [os.path.join(kept, str(place)) for place in range(len(lines))]
            tried = [f"{{ {line}\n}} >{name} 2>&1; echo $? >{name}.status\n" for name, line in zip(names, lines)]
            words = ["sh", "-c", "".join(tried)]
            subprocess.run(
                words, cwd=self.folder, env=self.environment, stdin=subprocess.DEVNULL, timeout=SECONDS, check=False
            )
            return [(read_text(name + ".status").strip(), read_text(name)) for name in names]


def read_text(path):
    """What a file has; nothing, if sh didn't come to make it."""
    if not os.path.exists(path):
        return ""
    with open(path, encoding="utf-8", errors="replace") as file:
        return file.read()

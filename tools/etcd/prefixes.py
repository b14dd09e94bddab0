"""Runs the guide's line that adds up what etcd keeps below each prefix, and compares it with the sums of this program's
list of revisions."""

import os
import re
import subprocess

from guide import read_guide
from run_examples import commands

DEPTH = 2
# How many prefixes are printed.
MOST = 10
SECONDS = 60


def guide_line(file):
    """The line of the guide, for a file. There it shows fewer prefixes of an example."""
    [line] = [command for command, _ in commands(read_guide()) if f"awk -v depth={DEPTH}" in command]
    return re.sub(r"head -n \d+$", "head", line.replace("examples/etcd.db", file))


def printable(name):
    """A name as `etcd-revisions` prints it."""
    return name.decode() if all(0x20 <= byte <= 0x7E for byte in name) else name.hex()


def sums(revisions):
    """For each prefix: the bytes of all values, how many keys there are, the bytes of their values, and how many other
    revisions."""
    newest = {one.name: one for one in revisions}
    found = {}
    for one in revisions:
        prefix = "/".join(printable(one.name).split("/")[: DEPTH + 1])
        counts = found.setdefault(prefix, [0, 0, 0, 0])
        is_key = one is newest[one.name] and one.version > 0
        counts[0] += len(one.value)
        counts[1] += is_key
        counts[2] += len(one.value) * is_key
        counts[3] += not is_key
    return found


def compare_prefixes(comparisons, file):
    """Compares both, for a file."""
    environment = dict(os.environ, PATH=os.path.dirname(comparisons.program) + os.pathsep + os.environ["PATH"], LC_ALL="C")
    ran = subprocess.run(
        ["bash", "-c", guide_line(file)], env=environment, capture_output=True, timeout=SECONDS, check=False
    )
    revisions = [one for _, one in comparisons.lines("etcd-revisions", "--values", "--form", "json-hex", file)]
    lines = [(counts[0], " ".join(map(str, [*counts, prefix]))) for prefix, counts in sums(revisions).items()]
    wanted = [line for _, line in sorted(lines, reverse=True)][:MOST]
    comparisons.want_same_lists(f"what takes the room of {file}", wanted, ran.stdout.decode().splitlines())

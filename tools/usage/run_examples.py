#!/usr/bin/env python3
"""Runs the commands that documents show, and compares what they print.

    run_examples.py PROGRAM DOCUMENT..

In a document an example is a block that is indented by four spaces. Each line of it that begins with `$ ` is a command, and the lines below it are all that it prints,
on both streams. The commands are run by bash in order in the current folder, where `luntsegi` is PROGRAM
and `bbolt` is bbolt's own command in out/peers; if that isn't there, the commands that begin with `bbolt` are left out. Files
that they write go to out/examples, which the commands of a document make anew: so they can be run again,
and after those of others. Prints what differs; the status is 1 then, and if a document has no command.
"""

import difflib
import os
import re
import subprocess
import sys
import tempfile

BBOLT = "out/peers/bbolt/bbolt"


def blocks(text):
    """The examples of a document, without their indent."""
    return [re.sub(r"(?m)^ {4}", "", block) for block in re.findall(r"(?m)(?:^ {4}.*\n)+", text)]


def commands(text):
    """The commands of a document, each with what it prints."""
    parts = [part for block in blocks(text) for part in re.split(r"(?m)^\$ ", block)[1:]]
    return [part.partition("\n")[::2] for part in parts]


def printed(command, folder):
    """What a command prints. Programs are looked for in a folder first."""
    environment = dict(os.environ, PATH=folder + os.pathsep + os.environ["PATH"], LC_ALL="C")
    run = subprocess.run(
        ["bash", "-c", command],
        env=environment,
        stdin=subprocess.DEVNULL,
        stdout=subprocess.PIPE,
        stderr=subprocess.STDOUT,
    )
    return run.stdout.decode(errors="replace")


def differs(name, command, wanted, found):
    if found == wanted:
        return False
    print(f"{name}: $ {command}")
    lines = difflib.unified_diff(wanted.splitlines(), found.splitlines(), "shown", "printed", lineterm="")
    print("\n".join(lines))
    return True


def run_document(name, folder):
    """Runs a document's commands, and says whether it has any and all print what is shown."""
    with open(name, encoding="utf-8") as file:
        shown = commands(file.read())
    run = [(command, wanted) for command, wanted in shown if can_run(command)]
    different = [differs(name, command, wanted, printed(command, folder)) for command, wanted in run]
    left_out = len(shown) - len(run)
    print(f"{name}: {len(run)} commands, {sum(different)} differ" + f", {left_out} left out" * bool(left_out))
    return bool(run) and not any(different)


def can_run(command):
    """Whether the command's program exists. Only bbolt may be missing."""
    return not command.startswith("bbolt ") or os.path.exists(BBOLT)


def main():
    program, *names = sys.argv[1:]
    with tempfile.TemporaryDirectory() as folder:
        os.symlink(os.path.abspath(program), os.path.join(folder, "luntsegi"))
        os.symlink(os.path.abspath(BBOLT), os.path.join(folder, "bbolt"))
        right = [run_document(name, folder) for name in names]
    sys.exit(not all(right))


if __name__ == "__main__":
    main()

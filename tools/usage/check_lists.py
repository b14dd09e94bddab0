#!/usr/bin/env python3
"""Tests that the tools' own lists have each command and each option that help has, for `make manual`.

    check_lists.py PROGRAM

| list | what must be in it |
|---|---|
| tests/cases | each option of each command |
| tools/try/*.txt with failures.sh, and with memory.sh | the same, so that each call fails in turn; an option that is read alike by all needs one command |
| tools/fuzz/program.py | each command, with what it may report |
| tools/fuzz | each option, in a comparison |
| MAY_BEGIN of tools/refuse/sweep.py | each command, and no word that it doesn't have |
| the end of each command's help | its exit status, and an example that isn't refused |

--help is left out. A line is printed for each that is missing. The status is 1 then."""

import glob
import re
import sys

sys.path[:0] = ["tools/fuzz", "tools/refuse", "tests"]

from help_words import HELP, REFUSED, Reader  # noqa: E402
from program import FAULTS, TEXTS  # noqa: E402
from sweep import MAY_BEGIN  # noqa: E402

# One function reads each of these options for all commands that have it.
READ_ALIKE = {"--meta", "--assume-meta", "--parts"}
# These make calls fail: writes, reads and syncs; and requests for memory.
SCRIPTS = ("failures.sh", "memory.sh")


def texts_of(*patterns):
    """The texts of these files."""
    for name in sorted(it for pattern in patterns for it in glob.glob(pattern)):
        with open(name, encoding="utf-8") as file:
            yield file.read()


def lines_in_cases():
    """The words of each command line in a test case."""
    return [set(line.split()) for text in texts_of("tests/cases/*.cases") for line in re.findall(r"^\$ (.*)", text, re.M)]


def failing_lines(script):
    """The words of each command line whose calls fail in a script: lines of its lists, and its own, mostly in quotes."""
    lists = [line for text in texts_of("tools/try/*.txt") for line in text.splitlines()]
    own = [part for text in texts_of(f"tools/try/{script}") for part in re.split(r'["\n]', re.sub(r"(?m)^#.*", "", text))]
    return [set(line.split()) for line in lists + own]


def options_of(command):
    return [option for option in command.options if "--help" not in option.names]


def lacks_command(commands):
    lists = {
        **{f"tools/try, with {script}," : set().union(*failing_lines(script)) for script in SCRIPTS},
        "tools/fuzz/program.py": {*FAULTS, *TEXTS},
        "MAY_BEGIN of tools/refuse/sweep.py": MAY_BEGIN,
    }
    for place, names in lists.items():
        yield from (f"{place} lacks {command.name}" for command in commands if command.name not in names)


def lacks_option(commands):
    lists = {"tests/cases": lines_in_cases()}
    lists |= {f"tools/try, with {script},": failing_lines(script) for script in SCRIPTS}
    compared = {word for text in texts_of("tools/fuzz/*.py") for word in re.findall(r'"(--?[\w-]+)"', text)}
    for command in commands:
        for option in options_of(command):
            names, words = {*option.names}, " or ".join(option.names)
            for place, lines in lists.items():
                of_any = place != "tests/cases" and names & READ_ALIKE
                if not any(line & names and (of_any or command.name in line) for line in lines):
                    yield f"{place} lacks {words}" if of_any else f"{place} lacks {command.name} {words}"
            if not names & compared:
                yield f"tools/fuzz lacks {words} of {command.name}"


def unknown(commands):
    """The words of MAY_BEGIN that the program doesn't have."""
    known = {it.name: {word for option in it.options for word in (*option.names, *option.few)} for it in commands}
    for name, words in MAY_BEGIN.items():
        others = {*(words or ())} - known.get(name, set())
        if name not in known or others:
            yield f"MAY_BEGIN of tools/refuse/sweep.py has {name} with {sorted(others)}, which help doesn't have"


def lacks_example(reader, commands):
    for command in commands:
        end = re.search(r"\n\nExit status: .*\n\nExample: luntsegi (.*)\n$", reader.help_text(command.name))
        words = end[1].split() if end else []
        if words[:1] != [command.name] or reader.run(*words)[0] == REFUSED:
            yield f"help of {command.name} lacks the exit status or a right example"


def main():
    reader = Reader(sys.argv[1])
    commands = [it for it in reader.read().commands if it.name != HELP]
    lacks = [lacks_command(commands), lacks_option(commands), lacks_example(reader, commands), unknown(commands)]
    found = dict.fromkeys(line for lines in lacks for line in lines)
    print("".join(f"{it}\n" for it in found), end="")
    sys.exit(1 if found else 0)


if __name__ == "__main__":
    main()

#!/usr/bin/env python3
"""Makes what repeats the help of `luntsegi`: the completions of bash, zsh and fish, and the synopses of
docs/COMMANDS.md.

    words.py --write|--check PROGRAM

Run it at the top of the sources. With --write it writes those parts of the files. With --check it writes nothing: it
prints how they differ from what it would write, and the status is 1 then.
"""

import difflib
import os
import re
import sys

import help_words
import shells
import synopses

MADE = r"(?ms)^(# ---- made from help by tools/usage/words\.py\n).*?^(# ---- end\n)"
# What is made: the file, the pattern of that part of it with what is before and after it, and the maker.
PARTS = [
    ("completions/luntsegi.bash", MADE, shells.bash),
    ("completions/_luntsegi", MADE, shells.zsh),
    ("completions/luntsegi.fish", MADE, shells.fish),
    ("docs/COMMANDS.md", r"(?m)()(?:^    luntsegi .*\n)+()", synopses.plain),
]


def text_of(name):
    with open(name, encoding="utf-8") as file:
        return file.read()


def remade(name, pattern, made):
    """The text of a file and the same with the part that is made."""
    text = text_of(name)
    if not re.search(pattern, text):
        raise SystemExit(f"{name}: the part that is made isn't there")
    return text, re.sub(pattern, lambda match: match[1] + made + match[2], text, count=1)


def check(name, text, wanted):
    """Prints how a file differs from what it should be."""
    lines = difflib.unified_diff(text.splitlines(), wanted.splitlines(), name, "made from help", lineterm="")
    print("\n".join(lines))


def write(name, text, wanted):
    with open(name, "w", encoding="utf-8") as file:
        file.write(wanted)
    print(f"{name}: written")


def main():
    actions = {"--check": check, "--write": write}
    action, program = actions[sys.argv[1]], help_words.read(os.path.abspath(sys.argv[2]))
    different = []
    for name, pattern, make in PARTS:
        text, wanted = remade(name, pattern, make(program))
        if text != wanted:
            different.append(name)
            action(name, text, wanted)
    print(f"words.py: {len(PARTS)} parts are made from help, {len(different)} differed")
    sys.exit(bool(different) and action is check)


main()

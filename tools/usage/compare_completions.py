#!/usr/bin/env python3
"""Compares what bash, zsh and fish complete after `luntsegi` with its help.

    compare_completions.py PROGRAM

They must offer each command, also after `help`; each option of the program and of each command; for an option with a
few values, these; and file names for FILE and OUT, and nowhere else. A shell that isn't installed is left out, with a
message. Prints what differs; the status is 1 then.
"""

import os
import shutil
import sys
import tempfile

import completing
import help_words

SHELLS = {"bash": completing.offered_by_bash, "zsh": completing.offered_by_zsh, "fish": completing.offered_by_fish}
FILES = ["one.db", "other.db"]


def names(options):
    return sorted(name for option in options for name in option.names)


def values(option):
    """What must be offered for the value of an option."""
    return FILES if option.value == "OUT" else sorted(option.few)


def rows_of_command(command):
    """Lines of a command, each with everything that must be offered for its last word."""
    yield [command.name, "-"], names(command.options)
    yield [command.name, ""], FILES
    yield [command.name, "--", ""], FILES
    yield [command.name, FILES[0], *[help_words.ANY] * (len(command.operands) - 1), "o"], []
    for option in command.options:
        if option.value:
            yield [command.name, option.names[0], ""], values(option)
            yield [command.name, FILES[0], option.names[0], ""], values(option)
            yield [command.name, option.names[0], "1", ""], FILES


def rows(program):
    commands = sorted(command.name for command in program.commands)
    yield [""], commands
    yield ["-"], names(program.options)
    yield [help_words.HELP, ""], commands
    yield [help_words.HELP, commands[0], ""], []
    for command in program.commands:
        if command.name != help_words.HELP:
            yield from rows_of_command(command)


def differs(shell, folder, words, wanted):
    offered = SHELLS[shell](folder, ["luntsegi", *words])
    if offered == wanted:
        return False
    print(f"{shell} offers for {words}: {offered}, and help has: {wanted}")
    return True


def compare(shell, program):
    """Compares each row, in a folder with two files."""
    with tempfile.TemporaryDirectory() as folder:
        for name in FILES:
            open(os.path.join(folder, name), "w", encoding="utf-8").close()
        different = [differs(shell, folder, *row) for row in rows(program)]
    print(f"{shell}: {len(different)} lines, {sum(different)} differ")
    return not any(different)


def main():
    program = help_words.read(os.path.abspath(sys.argv[1]))
    installed = [shell for shell in SHELLS if shutil.which(shell)]
    for shell in sorted(SHELLS.keys() - installed):
        print(f"{shell} isn't installed: its completion isn't compared")
    sys.exit(not all([compare(shell, program) for shell in installed]))


main()

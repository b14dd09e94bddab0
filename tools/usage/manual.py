#!/usr/bin/env python3
"""Prints the manual page of `luntsegi`, in the macros of man(7): what help says of commands and options, and then
docs/COMMANDS.md.

    manual.py PROGRAM COMMANDS.md DATE
"""

import os
import re
import sys
from itertools import groupby

import help_words
import synopses

NAME = "luntsegi - inspect, check, compact and recover bbolt database files"
# A text in code type, a strong word, an emphasized one, and a link.
SPAN = re.compile(r"`([^`]+)`|\*\*(.+?)\*\*|\*(.+?)\*|\[([^\]]*)\]\(([^)#]*)[^)]*\)")
# A link to another document alone in brackets.
ASIDE = re.compile(r"\(\[[^\]]*\]\((\w+\.md)[^)]*\)\)")


def escaped(text):
    """A text in which nothing is a macro."""
    return re.sub(r"(?m)^(?=[.'])", r"\\&", text.replace("\\", r"\e").replace("-", r"\-"))


def marked(match):
    code, strong, emphasized, link, document = match.groups()
    if link is not None:
        return spans(link) + (f" ({document})" if document not in ("", link) else "")
    if emphasized is not None:
        return rf"\fI{spans(emphasized)}\fR"
    return rf"\fB{escaped(code) if code is not None else spans(strong)}\fR"


def spans(text):
    """A paragraph in Markdown, as the page has it. A link stands for its text, with the name of another document."""
    text = ASIDE.sub(r"(see \1)", text)
    parts, end = [], 0
    for match in SPAN.finditer(text):
        parts += [escaped(text[end : match.start()]), marked(match)]
        end = match.end()
    return re.sub(r"^(?=[.'])", r"\\&", "".join(parts) + escaped(text[end:]))


def item(head, text):
    return f".TP\n{head}\n{text}\n"


def cells(line):
    return [cell.strip() for cell in line.strip().strip("|").split(" | ")]


def row(names, line):
    """A row of a table: its first cell, and the others with the names of their columns, but for the first of them."""
    first, *rest = cells(line)
    named = [f"{name}: {spans(cell)}" for name, cell in list(zip(names[1:], rest))[1:] if cell]
    return item(spans(first) or r"\&", "\n.br\n".join([spans(rest[0]) or r"\&", *named]))


def table(lines):
    names = cells(lines[0])
    return "".join(row(names, line) for line in lines[2:])


def literal(lines):
    text = escaped("\n".join(line[4:] for line in lines))
    return f".PP\n.RS 4\n.nf\n{text}\n.fi\n.RE\n"


def block(lines):
    """A block of Markdown, as the page has it."""
    if lines[0].startswith("## "):
        return f".SH {escaped(lines[0][3:].upper())}\n"
    if lines[0].startswith("### "):
        return f".SS {escaped(lines[0][4:])}\n"
    if lines[0].startswith("|"):
        return table(lines)
    if lines[0].startswith("    "):
        return literal(lines)
    if lines[0].startswith("- "):
        return "".join(f".IP \\(bu 2\n{spans(line[2:])}\n" for line in lines)
    return ".PP\n" + "\n".join(map(spans, lines)) + "\n"


def page_of(text):
    """A document without its title."""
    parts = groupby(text.splitlines()[1:], lambda line: line == "")
    return "".join(block(list(lines)) for is_empty, lines in parts if not is_empty)


def word(text):
    """A word of a synopsis: what somebody types is bold, what it stands for isn't."""
    return re.sub(r"[a-z-]{2,}", lambda match: rf"\fB{match[0]}\fR", text)


def synopsis(program):
    lines = [*map(synopses.plain_line, program.commands), "luntsegi --help | --version"]
    return "".join(f".PP\n{' '.join(map(word, line.split()))}\n" for line in lines).replace("-", r"\-")


def option_head(option):
    value = rf" \fI{option.value}\fR" if option.value else ""
    return rf"\fB{escaped(', '.join(option.names))}\fR{value}"


def options(program):
    """The options by their heads, each text once, with the commands that have it if another text is there."""
    texts = {}
    for command in program.commands:
        for option in command.options:
            texts.setdefault(option_head(option), {}).setdefault(option.about, []).append(command.name)
    for head, abouts in texts.items():
        for about, names in abouts.items():
            these = f" ({', '.join(names)})" if len(abouts) > 1 else ""
            yield item(head + these, spans(about))


def main():
    program = help_words.read(os.path.abspath(sys.argv[1]))
    with open(sys.argv[2], encoding="utf-8") as file:
        about, _, reference = file.read().partition("\n\n    luntsegi ")
    reference = about + "\n" + reference[reference.index("\n\n") :]
    commands = "".join(item(rf"\fB{command.name}\fR", spans(command.about)) for command in program.commands)
    page = (
        f'.TH LUNTSEGI 1 {sys.argv[3]} luntsegi\n.SH NAME\n{escaped(NAME)}\n.SH SYNOPSIS\n{synopsis(program)}'
        f".SH COMMANDS\n{commands}.SH OPTIONS\n{''.join(options(program))}.SH DESCRIPTION\n{page_of(reference)}"
    )
    print(re.sub(r"(?m)^(\.S[HS] .*)\n\.PP$", r"\1", page), end="")


main()

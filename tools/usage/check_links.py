#!/usr/bin/env python3
"""Checks that what documents refer to exists.

    check_links.py FILE..

In each document (.md) these must hold:

- a relative link leads to a file, and its anchor to a heading of that file;
- a file that is named with its folder (docs/.., crates/.., tools/.., examples/.., completions/..)
  exists, and so does a module that is named as specs/.., proofs/.. or src/..: in a crate that the part of the
  sentence names, otherwise in that of the line or of the document (`The definitions are in crates/..`), if it has one;
- a section that is quoted after a document's name, as in docs/SOUND.md, "Ways", is a heading there;
- a name in code type that only a program has, as `HasShape`, `free_ids` or `Page::leaf`, is in some source.

In other files, sources, each document that is named exists and has the sections that are quoted. A comment of a crate
names in code type only what is in its sources or in those of crates below, and has no name of a program outside of
that.

Run it at the top of the sources. Prints what is broken; the status is 1 then, and if a document
refers to nothing.
"""

import glob
import os
import re
import sys
from functools import cache

LINK = re.compile(r"\[[^\]]*\]\(([^)\s]+)\)")
NAMED = re.compile(r"(?<![\w/.(-])((?:docs|crates|tools|examples|completions)/[\w./*-]*[\w*])")
# (src/main.rt is what a reader makes of a README's program)
MODULE = re.compile(r"(?<![\w/])((?:specs|proofs)/[A-Z][\w/]*|src/(?!main\.rt)[\w/]+\.rt)")
DOCUMENT = re.compile(r"docs/\w+\.md\b")
QUOTED = re.compile(r"(docs/\w+\.md)\)?,? \(?\"([^\"]+)\"(?: and \"([^\"]+)\")?")
CODE = re.compile(r"`([^`\n]+)`")
PROGRAM_NAME = re.compile(r"(?:\w+::)?(?:[A-Z][a-z]+(?:[A-Z][a-z]*)+|[a-z]+(?:_[a-z]+)+)(?:::\w+)?|[A-Z]\w+::\w+")
CRATE = re.compile(r"`(bolt_\w+)`|crates/(bolt_\w+)/")
HOME = re.compile(r"The definitions are in `crates/(\w+)/specs`")
COMMENT = re.compile(r"(?m)^[ \t]*(?:///|//!|//|--) (.*)$")
BARE_NAME = re.compile(r"(?<![\w/.])[A-Za-z]+(?:_[A-Za-z0-9]+)+(?![\w/.])")
SOURCES = ("crates/*/src/**/*.rt", "crates/*/specs/**/*.antt", "crates/*/proofs/**/*.antt", "tests/*.py", "tools/*/*.py", "tools/*/*.c")
# The mark of a comment that goes on in the next line.
MARK = re.compile(r"\n[ \t]*(?:///|//!|//|--|#)?[ \t]*")


def text_of(name):
    with open(name, encoding="utf-8") as file:
        return file.read()


def prose_of(text):
    """The text without its examples, in which # begins no heading and a bracket no link."""
    return re.sub(r"(?m)^(?: {4}.*|```[\s\S]*?^```)$", "", text)


def headings(name):
    return re.findall(r"(?m)^#+ (.*)$", prose_of(text_of(name)))


def anchor(heading):
    """The anchor of a heading, as GitHub makes it."""
    return re.sub(r"[^\w\- ]", "", heading.lower()).replace(" ", "-")


def is_link_right(document, link):
    path, _, place = link.partition("#")
    file = os.path.join(os.path.dirname(document), path) if path else document
    if not os.path.exists(file):
        return False
    return not place or place in map(anchor, headings(file))


@cache
def words_of(pattern):
    """All words of the files of a pattern."""
    return {word for name in glob.glob(pattern, recursive=True) for word in re.findall(r"\w+", text_of(name))}


def is_in_sources(name):
    """Whether each word of a name is in some source, or it names test cases, a mutant or a bucket of etcd."""
    files = f"tests/cases/{name}.cases", f"crates/*/mutants/**/{name}.edit"
    if any(glob.glob(it, recursive=True) for it in files) or name == "members_removed":
        return True
    return all(any(word in words_of(pattern) for pattern in SOURCES) for word in re.findall(r"\w+", name))


def names(prose):
    """The names of programs in code type, each with whether a source has it."""
    for name in CODE.findall(prose):
        if PROGRAM_NAME.fullmatch(name):
            yield f"`{name}`", is_in_sources(name)


def is_module(name, crates):
    return any(glob.glob(f"crates/{it}/{name}{end}") for it in crates or ["*"] for end in ("", ".antt"))


def crates_in(text):
    return ["".join(it) for it in CRATE.findall(text)]


def modules(document, prose):
    """The modules that a document names, each with whether it is in the crate that is meant."""
    home = HOME.findall(prose) or re.findall(r"crates/(\w+)/README", document)
    for line in prose.split("\n"):
        of_line = crates_in(line[: len("- `bolt_commands`")]) if line.startswith("- ") else []
        for part in re.split(r"[;.] ", line):
            for name in MODULE.findall(part):
                yield name, is_module(name, crates_in(part) or of_line or home)


@cache
def crates_below(crate):
    """The crate and those that it stands on."""
    lines = dict(it.split(":") for it in text_of("crates.txt").split("\n") if ":" in it and not it.startswith("#"))
    return {crate}.union(*(crates_below(it) for it in lines.get(crate, "").split() if it in lines))


@cache
def code_words_of(crate):
    """All words of a crate's sources, without their comments."""
    files = [it for part in ("src", "specs", "proofs") for it in glob.glob(f"crates/{crate}/{part}/**/*.*t", recursive=True)]
    return {word for it in files for word in re.findall(r"\w+", COMMENT.sub("", text_of(it)))}


def is_known_to(crate, name):
    """Whether each word of a name is in the code of the crate or of one below, or the name is a crate's."""
    words = re.findall(r"\w+", name)
    return os.path.isdir(f"crates/{name}") or all(any(word in code_words_of(it) for it in crates_below(crate)) for word in words)


def comments(name, text):
    """What the comments of a crate's source name, each with whether it is there."""
    crate = re.search(r"crates/(\w+)/", name)[1]
    prose = "\n".join(COMMENT.findall(text))
    for code in CODE.findall(prose):
        if PROGRAM_NAME.fullmatch(code):
            yield f"`{code}`", is_known_to(crate, code)
    for bare in BARE_NAME.findall(CODE.sub("", prose)):
        yield bare, os.path.isdir(f"crates/{bare}")


def is_section(name, quoted):
    """Whether a document has the section; a heading may have more in brackets."""
    return os.path.exists(name) and any(re.sub(r" \(.*\)$", "", heading) == quoted for heading in headings(name))


def sections(text):
    """The quoted sections, each with whether it is there."""
    for name, *quoted in QUOTED.findall(MARK.sub(" ", text)):
        for heading in filter(None, quoted):
            yield f'{name}, "{heading}"', is_section(name, heading)


def references_of_source(source):
    text = text_of(source)
    for name in DOCUMENT.findall(text):
        yield name, os.path.exists(name)
    yield from sections(text)
    if "crates/" in source:
        yield from comments(source, text)


def references(document):
    """What the document refers to, each with whether it is there."""
    text = text_of(document)
    prose = prose_of(text)
    for link in LINK.findall(prose):
        if not re.match(r"\w+:", link):
            yield link, is_link_right(document, link)
    for name in NAMED.findall(text):
        yield name, bool(glob.glob(name))
    yield from modules(document, prose)
    yield from sections(prose)
    yield from names(prose)


def check(name):
    """Checks one file: everything that it refers to exists, and a document refers to something."""
    is_document = name.endswith(".md")
    found = list(references(name) if is_document else references_of_source(name))
    broken = [what for what, is_there in found if not is_there]
    for what in broken:
        print(f"{name}: {what}")
    return not broken and (bool(found) or not is_document)


def main():
    sys.exit(not all([check(name) for name in sys.argv[1:]]))


main()

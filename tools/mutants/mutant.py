"""Mutants: changes of a crate's sources that the prover must refuse, one a file, crates/CRATE/mutants/NAME.edit.

A line `file: src/..` names a source, and a pair of lines `old: ..` and `new: ..` a text that stands in it once and what
replaces it. A line `function: ..` names the function that is refused, where the change is in none, as that of a constant.
A line that begins with `#` says something to the reader. A file NAME.twin is a change that means the same: the prover must
accept it. Those that take the prover long are in crates/CRATE/mutants/long, and the gate leaves them out."""

import dataclasses
import os

from functions import function_at


class BadMutant(Exception):
    """A file that can't be read or applied, and why."""


@dataclasses.dataclass(frozen=True)
class Mutant:
    """What a file of a mutant says: the texts that it replaces, by source, and the functions that it changes, or the one
    that it names."""

    crate: str
    name: str
    changes: tuple
    functions: frozenset
    names_one: bool

    @property
    def is_twin(self):
        return self.name.endswith(".twin")

    def __str__(self):
        return f"{self.crate}/{self.name}"

    def apply(self, folder):
        """Changes the sources of a copy of the crate."""
        for file, old, new in self.changes:
            text = read(f"{folder}/{file}")
            if text.count(old) != 1:
                raise BadMutant(f"{self}: what another mutant changes is in the way: {old}")
            with open(f"{folder}/{file}", "w", encoding="utf-8") as it:
                it.write(text.replace(old, new))


def read(path):
    with open(path, encoding="utf-8") as it:
        return it.read()


def read_mutant(crate, folder, path):
    """Reads a mutant of the crate in this folder, and finds the functions that it changes."""
    name = os.path.basename(path)
    changes, functions, file, old = [], set(), None, None
    for line in read(path).split("\n"):
        word, _, text = line.partition(": ") if ": " in line else line.partition(":")
        if word == "file":
            file = text
        elif word == "old":
            old = text
        elif word == "new" and file and old:
            changes.append((file, old, text))
            old = None
        elif word == "function":
            functions.add(text)
        elif line and not line.startswith("#"):
            raise BadMutant(f"{crate}/{name}: this line is no word of a mutant: {line}")
    if not changes or old:
        raise BadMutant(f"{crate}/{name}: it has no text to replace, or one without a replacement")
    names_one = bool(functions)
    return Mutant(crate, name, tuple(changes), frozenset(functions or changed(crate, folder, name, changes)), names_one)


def changed(crate, folder, name, changes):
    """The functions that contain the texts which are replaced."""
    found = set()
    for file, old, _ in changes:
        source = read(f"{folder}/{file}")
        if source.count(old) != 1:
            raise BadMutant(f"{crate}/{name}: it replaces what is in {file} {source.count(old)} times, and not once: {old}")
        found.add(function_at(file, source, source.index(old)))
    found.discard(None)
    if not found:
        raise BadMutant(f"{crate}/{name}: it changes no function: name the one that is refused (`function: ..`)")
    return found


def mutants_of(crate, folder, has_long):
    """The mutants of a crate, by name, with those that take long or without them."""
    rooms = [f"{folder}/mutants", *[f"{folder}/mutants/long"] * has_long]
    files = [f"{room}/{name}" for room in rooms if os.path.isdir(room) for name in sorted(os.listdir(room))]
    return [read_mutant(crate, folder, it) for it in files if os.path.isfile(it)]


def in_rounds(mutants):
    """Groups mutants so that no two of a group change the same function, or the same text: one check tells of each. A
    constant is changed alone, since any function may depend on it."""
    rounds = []
    for mutant in mutants:
        for others in rounds:
            if not any(mutant.names_one or it.names_one or mutant.functions & it.functions or overlap(mutant, it) for it in others):
                others.append(mutant)
                break
        else:
            rounds.append([mutant])
    return rounds


def overlap(one, other):
    """Whether two mutants replace texts of which one contains the other."""
    return any(
        file == another and (old in older or older in old)
        for file, old, _ in one.changes
        for another, older, _ in other.changes
    )

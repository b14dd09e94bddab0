#!/usr/bin/env python3
"""Counts the instructions of commands that read a sound file, for `make work`. It needs valgrind.

    count_instructions.py PROGRAM CALLS

No clause can say that a function which makes its own cursors reads the keys once: only a cursor counts what it opens.
The call `keys_with_prefix` is handed one, and its contract bounds what is opened. So it is compared with that call:

- The call `keys` takes no more instructions than `keys_with_prefix` with the empty prefix.
- The command `keys` takes for a prefix without keys hardly more than `check`, which each command does first; and for
  all keys no more than for the two prefixes that share them out.

Nor can one say that a command makes its call once. So what `keys`, `buckets`, `get` and each form of `list` take above
`check` is compared with what their call takes above that of the check: a command that does anything twice takes about
twice as much. And `check --all` of a file whose last page is lost, which looks for gaps too, is compared with
`check` of the whole file.

The status is 1 if that isn't so."""

import os
import sys
import tempfile

from draft import make
from instructions import instructions

LEAVES, KEYS = 100, 150
BUCKETS, LONG = 4000, 300_000
# What else two runs may differ by, in hundredths.
SLACK = 2
# How much more a command may take than its call, in hundredths; and `check --all`, which also looks for the buckets among the
# entries and for gaps, than `check`.
MOST_ABOVE_CALL, MOST_ABOVE_CHECK = 15, 10
# The words of each command and of its call, which reads the same.
CALL_OF = {
    "keys FILE a --prefix 0": "print FILE keys printable 61 30",
    "buckets FILE b": "print FILE buckets printable 62",
    "get FILE c long --form json": "print FILE value json 63 6c6f6e67",
    "list FILE": "print FILE list hex .",
    "list FILE a": "print FILE part hex 61",
    "list FILE --from 61/3037353030": "print FILE list hex 61/3037353030",
    "list FILE --form json": "print FILE list json .",
    "list FILE --form json-hex": "print FILE list json-hex .",
}


def sorted_keys():
    """A file with the bucket `a`, whose keys stand on many leaves below one branch."""
    leaves = [f"leaf {3 + n} {n * KEYS}..{(n + 1) * KEYS - 1}=v" for n in range(LEAVES)]
    kids = " ".join(f"{n * KEYS:05}>{3 + n}" for n in range(LEAVES))
    branch, root = 3 + LEAVES, 4 + LEAVES
    lines = [f"meta root={root} mark={root + 1}", f"pages {root + 1}", *leaves, f"branch {branch} {kids}", f"leaf {root} a>{branch}/0"]
    return make("\n".join(lines))


def varied():
    """A file with the bucket `a` of many keys, `b` of many buckets, and `c` with a long value."""
    leaves = [f"leaf {3 + n} {n * KEYS}..{(n + 1) * KEYS - 1}=v" for n in range(LEAVES)]
    kids = " ".join(f"{n * KEYS:05}>{3 + n}" for n in range(LEAVES))
    branch = 3 + LEAVES
    many, overflow = branch + 1, BUCKETS * 72 // 4096
    value, more = many + overflow + 1, LONG // 4096 + 1
    root = value + more + 1
    lines = [f"meta root={root} mark={root + 1}", f"pages {root + 1}", "inline 0 k=v", *leaves, f"branch {branch} {kids}"]
    lines += [f"leaf {many}+{overflow} " + " ".join(f"{key:05}@0" for key in range(BUCKETS))]
    lines += [f"leaf {value}+{more} long={'v' * LONG}", f"leaf {root} a>{branch}/0 b>{many}/0 c>{value}/0"]
    return make("\n".join(lines))


def without_last_leaf(file):
    """The file of sorted keys whose last leaf is overwritten with zeros."""
    last = 4096 * (2 + LEAVES)
    return file[:last] + bytes(4096) + file[last + 4096 :]


def is_within(name, count, most, slack=SLACK):
    print(f"{name}: {count} instructions, at most {slack} in a hundred above {most}")
    return 100 * count <= (100 + slack) * most


def call_reads_once(calls, folder):
    called, _, keys = instructions(folder, calls, "keys", "FILE", "61")
    counted, _, begun = instructions(folder, calls, "begins", "FILE", "61", "")
    is_right = begun == b"%d\n%b" % (LEAVES + 1, keys)
    return is_within("the call keys", called, counted) and is_right


def command_reads_once(program, folder):
    checked, *_ = instructions(folder, program, "check", "FILE")
    whole, _, keys = instructions(folder, program, "keys", "FILE", "a")
    [(none, _, no_keys), (low, _, low_keys), (high, _, high_keys)] = [
        instructions(folder, program, "keys", "FILE", "a", "--prefix", prefix) for prefix in ("2", "0", "1")
    ]
    is_right = no_keys == b"" and keys == low_keys + high_keys
    is_short = is_within("keys with a prefix without keys", none, checked)
    return is_within("all keys", whole - none, low - none + high - none) and is_short and is_right


def commands_call_once(program, calls, folder):
    checked, *_ = instructions(folder, program, "check", "FILE")
    checked_by_call, *_ = instructions(folder, calls, "checked", "FILE")
    results = []
    for command, call in CALL_OF.items():
        taken, status, printed = instructions(folder, program, *command.split())
        counted, _, called = instructions(folder, calls, *call.split())
        is_right = status == 0 and printed and printed.rstrip(b"\n") == called.rstrip(b"\n")
        results.append(is_within(command, taken - checked, counted - checked_by_call, MOST_ABOVE_CALL) and is_right)
    return all(results)


def check_of_all_reads_once(program, folder):
    whole, *_ = instructions(folder, program, "check", "FILE")
    lost, status, _ = instructions(folder, program, "check", "LOST", "--all")
    return is_within("check --all", lost, whole, MOST_ABOVE_CHECK) and status == 1


def put(folder, name, file):
    with open(os.path.join(folder, name), "wb") as out:
        out.write(file)


def main():
    program, calls = (os.path.abspath(it) for it in sys.argv[1:])
    with tempfile.TemporaryDirectory() as folder:
        put(folder, "FILE", sorted_keys())
        put(folder, "LOST", without_last_leaf(sorted_keys()))
        results = [call_reads_once(calls, folder), command_reads_once(program, folder)]
        results.append(check_of_all_reads_once(program, folder))
        put(folder, "FILE", varied())
        results.append(commands_call_once(program, calls, folder))
    sys.exit(0 if all(results) else 1)


if __name__ == "__main__":
    main()

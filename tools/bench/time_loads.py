#!/usr/bin/env python3
"""Times `luntsegi load` of the listings of sound files, for `make bench`.

    time_loads.py PROGRAM FILE..

The listing of each file is loaded, and timed beside `list` and `compact` of the file, in turn; the
figures are medians of three. Then texts of one long line, and of buckets one within another, are
loaded at two lengths. The status is 1 where `load` fails or writes something else than `compact`,
where it takes longer than 1.6 times `list` and `compact` together, where its time grows half as much
again as the text does, or where it takes more memory than 1.5 times the text, 32 MiB and a thousand
bytes for each bucket that is open.
"""

import filecmp
import os
import sys
from statistics import median

from time_copies import ROOM, fresh, seconds

ROUNDS = 3
LONG = 50 * 2**10
NESTED = 3000
MOST_TIMES = 1.6
ROOM_IN_BUCKET = 1000


def listed(program, file, text):
    """The seconds of `list`, which writes into a file."""
    with open(text, "wb") as out:
        return seconds([program, "list", file], out)[0]


def one_round(program, file, text, copy, loaded):
    """The seconds of `list`, `compact` and `load`, and the memory of `load`."""
    list_time = listed(program, file, text)
    copy_time, _ = seconds([program, "compact", "--page-size", "4096", "-o", fresh(copy), file])
    load_time, memory = seconds([program, "load", "-o", fresh(loaded), text])
    return list_time, copy_time, load_time, memory


def time_load(program, file):
    """Prints the figures of one file, and returns whether they are as they should be."""
    text, copy, loaded = file + ".list", file + ".copy", file + ".loaded"
    rounds = [one_round(program, file, text, copy, loaded) for _ in range(ROUNDS)]
    list_time, copy_time, load_time, memory = (median(column) for column in zip(*rounds))
    allowed = MOST_TIMES * (list_time + copy_time)
    most = os.path.getsize(text) * 3 // 2 + ROOM
    print(
        f"load {file}: {load_time:.2f} s of {allowed:.2f} (list {list_time:.2f}, compact {copy_time:.2f}), "
        f"{os.path.getsize(text)} bytes of text, memory {memory} of {most}"
    )
    same = filecmp.cmp(copy, loaded, shallow=False)
    for path in (text, copy, loaded):
        os.remove(path)
    return same and load_time <= allowed and memory <= most


def long_line(length):
    """The pieces of a text of one line that has this many times 1,024 bytes in hexadecimal."""
    yield b"61 = "
    yield from (b"00" * 1024 for _ in range(length))
    yield b"\n"


def nested_lines(depth):
    """The lines of this many buckets, one within another."""
    return (b"/".join([b"62"] * (n + 1)) + b" bucket 0\n" for n in range(depth))


def time_lengths(program, folder, name, make, length, room):
    """Loads a text at two lengths, and returns whether the time grows with its bytes. The text is written piece by
    piece: the memory of a command is at least what this process had when it began the command."""
    times, sizes, most = [], [], []
    for factor in (1, 2):
        text, loaded = os.path.join(folder, "text.list"), os.path.join(folder, "text.db")
        with open(text, "wb") as out:
            out.writelines(make(factor * length))
        sizes.append(os.path.getsize(text))
        rounds = [seconds([program, "load", "-o", fresh(loaded), text]) for _ in range(ROUNDS)]
        times.append(median(time for time, _ in rounds))
        most.append((median(memory for _, memory in rounds), sizes[-1] * 3 // 2 + ROOM + factor * room))
        os.remove(text)
        os.remove(loaded)
    grown = sizes[1] / sizes[0] * 1.5
    shown = (f"{time:.2f} s for {size} bytes, memory {memory} of {bound}" for time, size, (memory, bound) in zip(times, sizes, most))
    print(f"load {name}: {', '.join(shown)}")
    return times[1] <= grown * times[0] + 0.1 and all(memory <= bound for memory, bound in most)


def main():
    program, *files = sys.argv[1:]
    good = True
    for file in files:
        good = time_load(program, file) and good
    folder = os.path.dirname(files[0])
    good = time_lengths(program, folder, "a long line", long_line, LONG, 0) and good
    good = time_lengths(program, folder, "nested buckets", nested_lines, NESTED, NESTED * ROOM_IN_BUCKET) and good
    sys.exit(0 if good else 1)


if __name__ == "__main__":
    main()

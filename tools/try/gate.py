#!/usr/bin/env python3
"""Runs the commands of the gate, one after the other, and prints what each part of them took, for `make test`.

    gate.py [--write] TIMES 'NAME: COMMAND'..

Before the first command, after it and at the end a loop is timed for two seconds, so that a slow hour can be told from
a slow change. The gate ends at the first command that fails, and its status is that command's. If all pass, it compares
each part's share of the whole with that of the file TIMES (`shares.py`), and fails if the share of a large proof doubled.
With --write it writes the file in place of that."""

import resource
import subprocess
import sys
import time

from processors import MUTANTS, Watch
from shares import Times, compare, read_times, write_times

STEPS = 500_000
SECONDS = 2


def time_loop():
    """The processor seconds of a loop of so many steps, on average over two seconds."""
    begin, rounds = time.process_time(), 0
    while time.process_time() - begin < SECONDS:
        number = 0
        for step in range(STEPS):
            number = (31 * number + step) % 1_000_003
        rounds += 1
    return (time.process_time() - begin) / rounds


def processor_seconds():
    """What the commands took that have ended."""
    used = resource.getrusage(resource.RUSAGE_CHILDREN)
    return used.ru_utime + used.ru_stime


def run_all(commands, loops, watch):
    """Runs the commands until one fails, and returns its status, the seconds of each part, and which parts are proofs. After
    the first one the loop is timed."""
    parts, proofs = {}, set()
    for name, _, command in (it.partition(": ") for it in commands):
        print(command, flush=True)
        begin = processor_seconds()
        status = subprocess.run(command, shell=True).returncode
        checks = watch.taken()
        parts.update(checks)
        proofs.update(it for it in checks if not it.endswith(MUTANTS))
        parts[name] = max(0, processor_seconds() - begin - sum(checks.values()))
        if status:
            return status if status > 0 else 128 - status, parts, proofs
        if len(loops) == 1:
            loops.append(time_loop())
    return 0, parts, frozenset(proofs)


def main(words):
    begin = time.monotonic()
    is_written = words[0] == "--write"
    file, *commands = words[is_written:]
    loops = [time_loop()]
    with Watch() as watch:
        status, parts, proofs = run_all(commands, loops, watch)
    loops.append(time_loop())
    minutes, clock = processor_seconds() / 60, (time.monotonic() - begin) / 60
    times = Times(parts, proofs, minutes, sum(loops) / len(loops))
    faults = []
    if not status and is_written:
        write_times(file, times)
    elif not status:
        faults = compare(read_times(file), times)
        status = 1 if faults else 0
    loop_times = ", ".join(f"{it:.3f}" for it in loops)
    print(
        *faults,
        f"the gate: {minutes:.1f} processor minutes, {clock:.1f} by the clock; a loop of {STEPS:,} steps took {loop_times} s"
        f"{'' if not status else f'; it FAILED with status {status}'}",
        sep="\n",
        flush=True,
    )
    return status


if __name__ == "__main__":
    sys.exit(main(sys.argv[1:]))

#!/usr/bin/env python3
"""Tries the program without its proofs, for `make quick`: command lines, documents and random files.

    quick.py FOLDER

The program is compiled into FOLDER. Then jobs run side by side, one for each processor. Of each its last line is printed,
and all that it says if it fails. The status is 1 then."""

import glob
import os
import subprocess
import sys
import time
from concurrent.futures import ThreadPoolExecutor

from keep_tried import keep_tried

NOT_SHOWN = (
    "No proof and no mutant was tried, no call of a library, no file above 512 KB; no completion, failure, refused"
    " memory or count of work, and nothing beside bbolt: make test"
)


def jobs(program):
    """What is run. The long ones come first, so that no processor waits at the end."""
    names = sorted(it for it in glob.glob("tests/cases/*.cases") if os.path.basename(it) != "wrong.cases")
    for first in (0, 10):
        yield [sys.executable, "-B", "tools/quick/random_files.py", program, str(first), "10"]
    yield ["sh", "tools/quick/documents.sh", program]
    for part in range(8):
        yield [sys.executable, "-B", "tools/quick/command_lines.py", program, *names[part::8]]


def run_job(words):
    """Runs a job, and says whether it ended well."""
    start = time.monotonic()
    ran = subprocess.run(words, stdout=subprocess.PIPE, stderr=subprocess.STDOUT, text=True, errors="replace")
    lines = ran.stdout.rstrip("\n").split("\n")
    shown = lines[-1:] if ran.returncode == 0 else [it for it in lines if not it.endswith(" hold, 0 don't")]
    print("\n".join(shown), f"({time.monotonic() - start:.0f} s)", flush=True)
    return ran.returncode == 0


def main():
    start = time.monotonic()
    program = keep_tried(sys.argv[1])
    print(f"The program is compiled ({time.monotonic() - start:.0f} s)", flush=True)
    with ThreadPoolExecutor(len(os.sched_getaffinity(0))) as processors:
        held = [*processors.map(run_job, jobs(program))]
    print(f"quick: {sum(held)} of {len(held)} jobs hold, in {time.monotonic() - start:.0f} s. {NOT_SHOWN}")
    sys.exit(not all(held))


if __name__ == "__main__":
    main()

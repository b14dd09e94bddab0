"""How many instructions a command takes, by valgrind: the same number however busy the machine is."""

import re
import subprocess

VALGRIND = ["valgrind", "--tool=cachegrind", "--cache-sim=no", "--cachegrind-out-file=/dev/null"]


def instructions(folder, *words):
    """How many instructions a command takes that is run in a folder, its status, and what it prints."""
    ran = subprocess.run([*VALGRIND, *words], cwd=folder, capture_output=True, timeout=300)
    counted = re.search(rb"I +refs: +([\d,]+)", ran.stderr)[1]
    return int(counted.replace(b",", b"")), ran.returncode, ran.stdout

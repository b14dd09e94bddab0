"""Watches which processor time each check of a crate takes while a command runs, and those that it starts."""

import os
import threading

EACH = 0.2
# How the name of a part ends that is a check of mutants.
MUTANTS = " mutants"
TICKS = os.sysconf("SC_CLK_TCK")


class Watch:
    """Looks at all processes a few times a second. The last moments of a process are missed, which are as long for all."""

    def __init__(self):
        self.seconds, self.ended = {}, threading.Event()
        self.thread = threading.Thread(target=self.watch, daemon=True)

    def __enter__(self):
        self.thread.start()
        return self

    def __exit__(self, *_):
        self.ended.set()
        self.thread.join()

    def watch(self):
        while not self.ended.wait(EACH):
            processes = dict(filter(None, map(process, filter(str.isdigit, os.listdir("/proc")))))
            for number, (name, parent, begin, seconds) in processes.items():
                if name == "rattle" and is_below(parent, processes):
                    part = self.seconds.get((number, begin), (None,))[0] or part_of(number)
                    self.seconds[number, begin] = part, seconds

    def taken(self):
        """The seconds of each part since the last call."""
        seconds, self.seconds = self.seconds, {}
        parts = {}
        for part, taken in seconds.values():
            if part:
                parts[part] = parts.get(part, 0) + taken
        return parts


def process(number):
    """The name of a process, its parent, when it began, and its processor seconds; None if it has ended."""
    try:
        with open(f"/proc/{number}/stat", encoding="utf-8", errors="replace") as it:
            head, _, rest = it.read().rpartition(")")
    except OSError:
        return None
    words = rest.split()
    return number, (head.partition("(")[2], words[1], words[19], (int(words[11]) + int(words[12])) / TICKS)


def is_below(number, processes):
    """Whether a process was started by this one, or by one that it started."""
    while number in processes and number != str(os.getpid()):
        number = processes[number][1]
    return number == str(os.getpid())


def part_of(number):
    """What a call of the prover is for: a crate's proof, its tests or its mutants."""
    try:
        with open(f"/proc/{number}/cmdline", encoding="utf-8", errors="replace") as it:
            words = it.read().split("\0")
    except OSError:
        return None
    if "--crate-name" not in words:
        return None
    crate = words[words.index("--crate-name") + 1]
    kinds = [" tests" for it in words if it == "--test"] + [MUTANTS for it in words if it.startswith("--only")][:1]
    return "".join([crate, *kinds])

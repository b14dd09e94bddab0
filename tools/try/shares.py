"""What the parts of the gate take of the whole. Shares don't depend on how fast the machine is."""

import dataclasses

# A proof whose share grew so many times is a fault, if it is that large, in hundredths of what was done.
GROWTH, LARGE = 2, 3
# Less than so many hundredths of the recorded gate tell nothing.
ENOUGH = 30
HEAD = (
    "# What each part of the gate takes, in hundredths of the whole: the proof of a crate, its tests, its mutants, or a target.\n"
    "# `make times` writes this file.\n"
)


@dataclasses.dataclass(frozen=True)
class Times:
    """The processor seconds of each part, which of the parts are proofs of crates and of their tests, the minutes of the
    whole, and the seconds of the loop."""

    parts: dict
    proofs: frozenset
    minutes: float
    loop: float

    def loops(self):
        """How many loops take as long as the whole: a figure that depends less on the machine than minutes."""
        return 60 * self.minutes / self.loop


def write_times(file, times):
    whole = sum(times.parts.values())
    lines = sorted(((100 * taken / whole, part) for part, taken in times.parts.items()), reverse=True)
    with open(file, "w", encoding="utf-8") as it:
        it.write(f"{HEAD}# {times.minutes:.1f} processor minutes, where the loop takes {times.loop:.4f} s\n")
        it.writelines(f"{share:.2f} {part}\n" for share, part in lines)


def read_times(file):
    """The times of a file, in which the parts are hundredths."""
    with open(file, encoding="utf-8") as it:
        lines = it.read().splitlines()
    words = next(it for it in lines if "processor minutes" in it).split()
    parts = dict(reversed(it.split(" ", 1)) for it in lines if not it.startswith("#"))
    return Times({part: float(share) for part, share in parts.items()}, frozenset(), float(words[1]), float(words[-2]))


def compare(recorded, times):
    """Prints how the whole compares, and returns a line for each large proof whose share of what was done grew too much.
    Proofs that are kept of an earlier run aren't done."""
    done = {it: taken for it, taken in times.parts.items() if it in recorded.parts}
    known = sum(recorded.parts[it] for it in done)
    print(
        f"the gate took as long as {times.loops():,.0f} loops; recorded are {recorded.loops():,.0f}, of which"
        f" {known:.0f} in a hundred were done now"
    )
    if known < ENOUGH:
        print("that is too little to compare shares")
        return []
    whole = sum(done.values())
    faults = []
    for part in sorted(times.proofs):
        share = 100 * times.parts[part] / whole
        before = 100 * recorded.parts[part] / known if part in done else None
        if share >= LARGE and (before is None or share >= GROWTH * before):
            was = "isn't recorded" if before is None else f"was {before:.1f}"
            faults.append(f"SLOW: the proof of {part} takes {share:.1f} in a hundred, and {was}: find out why, or write them anew (make times)")
    return faults

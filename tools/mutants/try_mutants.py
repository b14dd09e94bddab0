#!/usr/bin/env python3
"""Tests that the prover refuses the mutants of the crates: crates/CRATE/mutants/NAME.edit.

    try_mutants.py [--over-gate | --each] [CRATE..]

It tries those of all crates, or of the crates that are named. `mutant.py` says what is in a file. Mutants of one crate that
change different functions are tried by one check: each function is proved from the contracts of those that it calls, so a
change in one body tells nothing of another, and the prover says of each function whether it is proved. Those that aren't
refused so are tried again without the others, at last alone. It fails unless each mutant is refused for more than a name
that it took away, and each NAME.twin, which means the same, is proved.

The libraries below a crate are those that `rt lib` makes; with --over-gate those that `rt ci` made just before, as far as
it left them, and mutants that take long are left out. With --each it tries each mutant from nothing, one at a time, and prints
the processor seconds that this took. JOBS says how many crates are tried side by side."""

import os
import resource
import subprocess
import sys
import tempfile
from concurrent.futures import ThreadPoolExecutor

from mutant import BadMutant, in_rounds, mutants_of
from prover import Toolchain, try_round

TOP = os.path.dirname(os.path.dirname(os.path.dirname(os.path.realpath(__file__))))


def build_libraries(toolchain, crates, over_gate):
    """Builds the libraries that these crates stand on. A library that `rt ci` left has no stamp."""
    wanted = {below for crate in crates for below in toolchain.below[crate] if below in toolchain.below}
    for crate in [it for it in toolchain.below if it in wanted]:
        made = f"{TOP}/crates/{crate}/out/rlib"
        if over_gate and os.path.isdir(f"{made}/{crate}.rlib") and not os.path.isfile(f"{made}/stamp"):
            continue
        subprocess.run(["rt", "lib"], cwd=f"{TOP}/crates/{crate}", stdout=subprocess.DEVNULL, check=True)


def try_crate(toolchain, crate, mutants):
    """Tries the mutants of a crate, and returns a line for each, with whether it is as it has to be."""
    results = []
    with tempfile.TemporaryDirectory(prefix="mutants-seed-") as seed:
        for mutants in in_rounds(mutants):
            results += try_together(toolchain, crate, mutants, seed)
    return results


def try_together(toolchain, crate, mutants, seed):
    """Tries mutants by one check, and those again of which it doesn't tell what is wanted, without the others: a mutant
    hides what becomes of one in a function that calls its own, if a lemma of that cites its proof."""
    try:
        refusals = try_round(toolchain, crate, mutants, seed)
    except BadMutant as fault:
        if len(mutants) == 1:
            return [(False, f"{mutants[0]}: BAD: {fault}")]
        refusals = {}
    settled = [it for it in mutants if it in refusals and (refusals[it] is None) == it.is_twin]
    others = [it for it in mutants if it not in settled]
    results = [(True, f"{it}: {'proved, as it must be' if it.is_twin else f'refused: {refusals[it]}'}") for it in settled]
    if len(mutants) == 1:
        return results or [(False, f"{mutants[0]}: {'REFUSED, and means the same' if mutants[0].is_twin else 'NOT REFUSED'}")]
    for again in [others] if settled and others else [[it] for it in others]:
        results += try_together(toolchain, crate, again, seed)
    return results


def processor_seconds():
    used = resource.getrusage(resource.RUSAGE_CHILDREN)
    return used.ru_utime + used.ru_stime


def try_each(toolchain, crate, mutants):
    """The same with the processor seconds of each mutant, tried from nothing."""
    results = []
    for mutant in mutants:
        begin = processor_seconds()
        with tempfile.TemporaryDirectory(prefix="mutants-seed-") as seed:
            found = try_together(toolchain, crate, [mutant], seed)
        results += [(is_well, f"{processor_seconds() - begin:6.1f} s {line}") for is_well, line in found]
    return results


def main(words):
    toolchain = Toolchain.find(TOP)
    over_gate, each = "--over-gate" in words, "--each" in words
    crates = [it for it in words if it not in ("--over-gate", "--each")] or [*toolchain.below]
    unknown = [it for it in crates if it not in toolchain.below]
    if unknown:
        sys.exit(f"mutants: {unknown[0]} is no crate")
    try:
        mutants = {it: mutants_of(it, f"{TOP}/crates/{it}", not over_gate) for it in crates}
    except BadMutant as fault:
        sys.exit(f"mutants: {fault}")
    crates = [it for it in crates if mutants[it]]
    build_libraries(toolchain, crates, over_gate)
    crates.sort(key=lambda it: -len(mutants[it]))
    with ThreadPoolExecutor(1 if each else int(os.environ.get("JOBS") or 1)) as lanes:
        results = []
        for found in lanes.map(lambda it: (try_each if each else try_crate)(toolchain, it, mutants[it]), crates):
            print("\n".join(line[:240] for _, line in found), flush=True)
            results += found
    passed = sum(is_well for is_well, _ in results)
    print(f"mutants: {passed} passed, {len(results) - passed} failed")
    return 0 if passed == len(results) > 0 else 1


if __name__ == "__main__":
    sys.exit(main(sys.argv[1:]))

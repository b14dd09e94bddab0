"""Asks the prover for the functions that mutants change, in a copy of a crate, and reads what it says of each."""

import dataclasses
import os
import re
import shutil
import subprocess
import tempfile

from mutant import BadMutant

# What the prover says of a proof that names something which the change took away: it says little of a contract.
NAMES_ALONE = re.compile(r"has no field|is not in scope|has no `|was not admitted")
PLACE = re.compile(r"(?:note: )?(?:\./)?(?:proofs/(\S+?)/\w+\.antt|(src/\S+)):\d+:\d+: (.*)")
VERDICT = re.compile(r"fn (\S+): (.*)")


@dataclasses.dataclass(frozen=True)
class Toolchain:
    """The folder of the toolchain, and which libraries each crate of the repository stands on."""

    kit: str
    top: str
    below: dict

    @staticmethod
    def find(top):
        page = subprocess.run(["rt", "doc"], stdout=subprocess.PIPE, text=True, check=True).stdout
        with open(f"{top}/crates.txt", encoding="utf-8") as it:
            lines = [line.split(":") for line in it if line.strip() and not line.startswith("#")]
        return Toolchain(os.path.dirname(page.strip()), top, {name: below.split() for name, below in lines})

    def words(self, crate, folder, seed):
        """The prover's command line for a crate, as `rt` has it, with what is proved kept in the folder `seed`."""
        root = "src/main.rt" if os.path.isfile(f"{folder}/src/main.rt") else "src/lib.rt"
        words = [f"{self.kit}/bin/rattle", "check", "--crate-name", crate, root, "-L", f"dependency={self.kit}/rlibs"]
        for name in ["std", *self.below[crate]]:
            words += ["--extern", f"{name}={self.folder_of(name)}/{name}.rlib"]
        for name in self.below:
            words += ["-L", f"dependency={self.folder_of(name)}"]
        words += ["--antt-project", f"{self.kit}/rattle/logic/antt-project.json", "--logic-built", f"{self.kit}/logic_built"]
        return [*words, "--links", f"{crate}=", "--jobs", "1", "--incremental", seed]

    def folder_of(self, library):
        return f"{self.top}/crates/{library}/out/rlib" if library in self.below else f"{self.kit}/rlibs"


def try_round(toolchain, crate, mutants, seed):
    """Changes a copy of the crate by these mutants, and returns why the prover refuses each of them: None if it proves
    each function that the mutant changes."""
    with tempfile.TemporaryDirectory(prefix="mutants-") as room:
        for part in ("src", "specs", "proofs"):
            if os.path.isdir(f"{toolchain.top}/crates/{crate}/{part}"):
                shutil.copytree(f"{toolchain.top}/crates/{crate}/{part}", f"{room}/{part}")
        for mutant in mutants:
            mutant.apply(room)
        functions = sorted({it for mutant in mutants for it in mutant.functions})
        words = toolchain.words(crate, room, seed) + [f"--only={it}" for it in functions]
        ran = subprocess.run(words, cwd=room, stdin=subprocess.DEVNULL, stdout=subprocess.PIPE, stderr=subprocess.STDOUT, text=True, errors="replace")
    report = Report(ran.stdout)
    missing = [it for it in functions if not report.verdicts_on(it)]
    if ran.returncode not in (0, 1) or missing:
        raise BadMutant(f"{crate}: {', '.join(map(str, mutants))}: no verdict on {', '.join(missing)}:\n{ran.stdout[-2000:]}")
    return {mutant: report.refusal(mutant) for mutant in mutants}


class Report:
    """What the prover said: its verdicts on functions, and the errors at places of sources and proofs."""

    def __init__(self, text):
        self.verdicts, self.errors = {}, []
        # (a message goes on in lines with an indent)
        for line in text.replace("\n  ", " ").split("\n"):
            if found := VERDICT.match(line):
                self.verdicts[found[1]] = found[2]
            elif (found := PLACE.match(line)) and not NAMES_ALONE.search(found[3]):
                self.errors.append((found[1] or found[2], found[3]))

    def verdicts_on(self, function):
        """The verdicts on the functions whose names end so."""
        return {name: verdict for name, verdict in self.verdicts.items() if f"::{name}".endswith(f"::{function}")}

    def refusal(self, mutant):
        """Why a mutant is refused. That a function calls another one that isn't proved is no reason."""
        for function in sorted(mutant.functions):
            for name, verdict in self.verdicts_on(function).items():
                if "did not prove" in verdict:
                    return f"{function}: {verdict}"
                if verdict == "not proved":
                    # (the proof of a function that calls itself is in a folder that begins with +)
                    room = name.partition("::")[2].replace("::", "/")
                    reasons = [why for place, why in self.errors if place.replace("+", "") == room]
                    if reasons:
                        return f"{function}: {reasons[0]}"
        return None

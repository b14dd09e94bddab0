#!/usr/bin/env python3
"""Runs the programs that the READMEs of crates show, for `make programs`, and compares what they print.

    run_programs.py README..

A program is a block of Rust between lines of backquotes, and what it prints is the block after it. The sentence between them
names the file that it reads, if any, or how many of its first bytes. All programs are compiled into one, without their
proofs, in a copy of the crates, and each is a case of `rt try`. The status is 1 if one prints anything else."""

import pathlib
import re
import shutil
import subprocess
import sys
import tempfile

SHOWN = r"(?s)```rust\n(.*?)```\n\nIt prints(?: of (?:the first ([\d,]+) bytes of )?`([^`]+)`)?:\n\n```\n(.*?)```"
ARM = '[_, _, name] if name.as_str() == "{0}" => of_{0}::main(rt),'
MAIN = """use std::{{env, io}};
{modules}
fn main(rt: HostRuntime) -> io::Result<()> {{
    let words: Vec<String> = env::args(&rt)?.collect(rt.alloc())?;
    match words.as_slice() {{ {arms} _ => println!(rt; "no such program") }}
}}
"""


def write_programs(room, shown):
    """Writes the crate of all programs, and for each a case: its file, its name as a further word, and what it prints."""
    sources, cases = room / "crates/readme_programs/src", room / "cases"
    sources.mkdir(parents=True)
    cases.mkdir()
    for crate, (text, first, file, printed) in shown.items():
        (sources / f"of_{crate}.rt").write_text(text.replace("\nfn main(", "\npub fn main("))
        read = pathlib.Path(file).read_bytes() if file else b""
        (cases / crate).write_bytes(read[: int(first.replace(",", ""))] if first else read)
        (cases / f"{crate}.args").write_text(f"{crate}\n")
        (cases / f"{crate}.stdout").write_text(printed)
    modules, arms = "".join(f"mod of_{it};\n" for it in shown), " ".join(map(ARM.format, shown))
    (sources / "main.rt").write_text(MAIN.format(modules=modules, arms=arms))
    used = {it for text, *_ in shown.values() for it in re.findall(r"(?m)^use (bolt_\w+)::", text)}
    with open(room / "crates.txt", "a", encoding="utf-8") as crates:
        crates.write(f"readme_programs: {' '.join(sorted(used))}\n")
    return sources.parent


def main(names):
    shown = {it.split("/")[-2]: re.search(SHOWN, pathlib.Path(it).read_text()).groups() for it in names}
    with tempfile.TemporaryDirectory(prefix="luntsegi-programs-") as folder:
        shutil.copytree("crates", f"{folder}/crates", ignore=shutil.ignore_patterns("out", "mutants"))
        for it in ("HANDLES", "crates.txt"):
            shutil.copy(it, folder)
        words = ["rt", "try", "--cases", f"{folder}/cases", "--", "{}"]
        ran = subprocess.run(words, cwd=write_programs(pathlib.Path(folder), shown), capture_output=True, text=True)
    told = ran.stdout + ran.stderr
    ended = len(re.findall(r"(?m)^case=\S+ run=ended status=0 .*output=expected", told))
    print(f"{len(shown)} programs of READMEs: {ended} ended well, unproved, with status {ran.returncode} of rt try")
    sys.exit(told if ran.returncode or not 0 < ended == len(shown) else 0)


if __name__ == "__main__":
    main(sys.argv[1:])

#!/usr/bin/env python3
"""Compares the program with bbolt on the files that bbolt's own tests leave behind.

    own_tests.py PROGRAM BBOLT FOLDER

BBOLT is the program built from main.go. The tests of the package of bbolt's library are run in a copy of it in FOLDER, to
which keep.go is added: whenever they close a file, it is copied. Each different one the program calls sound, and then it
lists it as bbolt does; or it refuses it, and then bbolt's own check finds something, too, or the file has something that
bbolt's check doesn't look at. How often each reason comes is printed. The status is 1 if a sound file is listed otherwise,
if bbolt's check finds something in it, or if the tests leave no sound file. Without a fetched bbolt nothing is run.
"""

import hashlib
import os
import re
import shutil
import subprocess
import sys
from collections import Counter

LIBRARY = os.path.join("src", "go.etcd.io", "bbolt")
KEEP = os.path.join(os.path.dirname(os.path.abspath(__file__)), "keep.go")
CLOSE = "func (db *DB) close() error {\n"
SECONDS = 900


def read(path):
    with open(path, encoding="utf-8") as file:
        return file.read()


def write(path, text):
    with open(path, "w", encoding="utf-8") as file:
        file.write(text)


def make_copy(gopath, folder):
    """Copies the library, and adds what copies each file that is closed."""
    library = os.path.join(folder, LIBRARY)
    shutil.copytree(os.path.join(gopath, LIBRARY), library)
    write(os.path.join(library, "keep.go"), read(KEEP).replace("//go:build ignore\n", ""))
    place = os.path.join(library, "db.go")
    text = read(place)
    if text.count(CLOSE) != 1:
        sys.exit(f"{place}: nothing closes a file as it did")
    write(place, text.replace(CLOSE, CLOSE + "\tkeepFile(db.path)\n"))
    return library


def run_tests(gopath, folder):
    """Runs the tests of a copy of the library. Returns the folder with the files that they closed."""
    kept = os.path.join(folder, "kept")
    os.mkdir(kept)
    settings = {
        "GO111MODULE": "off",
        "GOPATH": folder + os.pathsep + gopath,
        "GOCACHE": os.path.abspath(os.path.join("out", "go")),
        "TMPDIR": folder,
        "BBOLT_KEPT": kept,
    }
    words = ["go", "test", "-vet=off", "-short", "."]
    library = make_copy(gopath, folder)
    run = subprocess.run(words, cwd=library, env=os.environ | settings, capture_output=True, timeout=SECONDS)
    if run.returncode != 0:
        sys.exit(f"bbolt's own tests fail: {run.stdout[-600:]!r} {run.stderr[-600:]!r}")
    return kept


def ended(*words):
    run = subprocess.run(words, stdout=subprocess.PIPE, stderr=subprocess.PIPE, check=False)
    return run.returncode, run.stdout, run.stderr


def different(folder):
    """The files of a folder, each content once."""
    seen = set()
    for name in sorted(os.listdir(folder)):
        path = os.path.join(folder, name)
        with open(path, "rb") as file:
            digest = hashlib.sha256(file.read()).digest()
        if digest not in seen:
            seen.add(digest)
            yield path


def reason(out, err):
    """The first line of a refusal, with N for each number."""
    return re.sub(r"\d+", "N", (out + err).decode().splitlines()[0])


def compare_sound(program, bbolt, file):
    """Refuses a sound file in which bbolt's check finds something, or that it lists otherwise."""
    if ended(bbolt, "check", file)[0] != 0:
        sys.exit(f"{file}: is sound, and bbolt's check finds something")
    if ended(program, "list", file)[:2] != ended(bbolt, "list", file)[:2]:
        sys.exit(f"{file}: bbolt lists something else")


def main():
    program, bbolt, folder = map(os.path.abspath, sys.argv[1:])
    gopath = os.environ.get("BBOLT_GOPATH")
    if gopath is None:
        print("bbolt's own tests aren't run: only the bbolt of out/peers has what they need")
        return
    shutil.rmtree(folder, ignore_errors=True)
    os.makedirs(folder)
    sound, refused = 0, Counter()
    for file in different(run_tests(gopath, folder)):
        status, out, err = ended(program, "check", file)
        if status == 0:
            compare_sound(program, bbolt, file)
            sound += 1
        else:
            refused[reason(out, err), ended(bbolt, "check", file)[0] == 0] += 1
    for (line, is_accepted), count in sorted(refused.items()):
        print(f"{count} refused: {line}; bbolt's check {'accepts' if is_accepted else 'refuses'} these")
    print(f"bbolt's own tests leave {sound + refused.total()} different files: {sound} are sound, and bbolt lists the same")
    shutil.rmtree(folder)
    sys.exit(sound == 0)


if __name__ == "__main__":
    main()

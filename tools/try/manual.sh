#!/bin/sh
# Compares the synopses, what bash, zsh and fish complete, and the lists of the tools with help, for `make manual`.
#
#     manual.sh PROGRAM
#
# If mandoc is installed, it must find nothing in the manual page. The guide must stay short. What documents and sources
# refer to must exist; the files of tools/usage/broken show that what is broken is found.
set -eux
program=$1
if command -v mandoc >/dev/null; then mandoc -Tlint -Wwarning out/luntsegi.1; fi
python3 -B tools/usage/words.py --check "$program"
python3 -B tools/usage/compare_completions.py "$program"
PYTHONPATH=tests:tools/format python3 -B tools/usage/check_lists.py "$program"
python3 -B tools/usage/check_kept.py tools/usage/kept.txt
python3 -B tools/usage/check_length.py
set +x
echo "check_links.py on all documents, and on the sources that refer to them" >&2
python3 -B tools/usage/check_links.py README.md docs/*.md crates/*/README.md \
	Makefile tools/*/*.sh crates/*/src/*.rt crates/*/src/*/*.rt crates/*/specs/*.antt crates/*/specs/*/*.antt crates/*/proofs/*.antt
python3 -B tools/usage/check_links.py tools/usage/broken/links.md tools/usage/broken/crates/bolt_format/comments.txt |
	cmp - tools/usage/broken/found

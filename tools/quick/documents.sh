#!/bin/sh
# Compares what the program prints with what documents and bbolt show: a short form of `make examples manual`.
#
#     documents.sh PROGRAM
set -eu
program=$1
for found in examples/*.buckets; do
	"$program" buckets "${found%.buckets}.db" | cmp - "$found"
done
for found in examples/*.list; do
	[ "$found" = examples/leaked.list ] || "$program" list "${found%.list}.db" | cmp - "$found"
done
python3 -B tools/usage/words.py --check "$program"
python3 -B tools/usage/check_length.py
python3 -B tools/usage/check_links.py README.md docs/*.md crates/*/README.md
python3 -B tools/usage/run_examples.py "$program" README.md docs/GUIDE.md docs/COMMANDS.md
python3 -B tools/usage/run_guide.py "$program"

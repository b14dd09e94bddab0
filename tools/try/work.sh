#!/bin/sh
# Counts what tells that a command does no more work than it has to, for `make work`.
#
#     work.sh PROGRAM CALLS
#
# It counts requests for memory, the bytes that are held and, if valgrind is there, instructions. make has made out/refuse.so.
set -eux
export PYTHONPATH=tests:tools/format:tools/bench
python3 -B tools/counts/count_requests.py "$1" out/refuse.so
python3 -B tools/counts/count_memory.py "$1" out/refuse.so
if command -v valgrind >/dev/null; then
	python3 -B tools/counts/count_instructions.py "$1" "$2"
	python3 -B tools/counts/count_growth.py "$1"
fi

#!/bin/sh
# Compares PROGRAM with bbolt's own library, of the version PEER, 1.3 if that isn't set:
#
#     try.sh PROGRAM ROUNDS [FILES [SEED]]
#
# Without Go or bbolt's source it says so and compares nothing. The guide's commands are run first: bbolt
# goes on writing into the copies that they make. It bears so many random files in which `check --for-bbolt` finds
# nothing, 300 if no number is given. Last, each page of two of bbolt's files is lost in turn, and bbolt
# reads the copy of what is left and found.
set -eu
tools/bbolt/build.sh
[ -x out/bbolt ] || exit 0
python3 -B tools/usage/run_examples.py "$1" docs/GUIDE.md
python3 -B tools/bbolt/compare.py "$1" out/bbolt out/bbolt_files examples/*.db --version "${PEER:-1.3}" --rounds "$2" \
    --random "${3:-300}" --seed "${4:-1}" --guide docs/GUIDE.md
python3 -B tools/lost/try_lost_pages.py --bbolt out/bbolt "$1" out/bbolt_files/churn.db out/bbolt_files/inline.db

#!/bin/sh
# Compares what the program prints of each real database with what bbolt finds in it, for `make examples`.
#
#     examples.sh PROGRAM
#
# A compact copy of each must be sound and list the same, its listing must make the same copy, and an existing OUT must
# be refused. Output that can't be written must be reported. Documents must show what is printed, and the other lines of
# docs/GUIDE.md must do what it says.
set -eux
program=$1
leaked=examples/leaked
copy=out/copy.db
loaded=out/loaded.db
mkdir -p out

for found in examples/*.buckets; do
	file=${found%.buckets}.db
	"$program" buckets "$file" | cmp - "$found"
	"$program" check "$file" | grep -qx OK
done

for found in examples/*.list; do
	[ "$found" != $leaked.list ] || continue
	file=${found%.list}.db
	"$program" list "$file" | cmp - "$found"
	rm -f $copy
	"$program" compact -o $copy "$file" >/dev/null
	"$program" check $copy | grep -qx OK
	"$program" list $copy | cmp - "$found"
	rm -f $copy $loaded
	"$program" compact --page-size 4096 -o $copy "$file" >/dev/null
	"$program" load -o $loaded "$found" >/dev/null
	cmp $copy $loaded
done

"$program" compact -o $copy $leaked.db 2>&1 | grep -qx "error: output exists"
rm $copy
"$program" compact --meta 1 -o $copy $leaked.db >/dev/null
"$program" list $copy | cmp - $leaked.list
"$program" list --meta 1 $leaked.db | cmp - $leaked.list
! "$program" check $leaked.db >/dev/null || exit 1
"$program" check $leaked.db | cmp - $leaked.findings
"$program" check $leaked.db 2>&1 >/dev/full | grep -qx "error: write failed"
status=0
"$program" check $leaked.db 2>/dev/null >/dev/full || status=$?
[ $status -eq 1 ]

python3 -B tools/lost/try_lost_pages.py "$program" $(ls examples/*.buckets | sed 's/\.buckets$/.db/')
python3 -B tools/usage/run_examples.py "$program" README.md docs/GUIDE.md docs/COMMANDS.md
python3 -B tools/usage/run_guide.py "$program"

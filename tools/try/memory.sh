#!/bin/sh
# Refuses each of the program's requests for memory in turn, for `make memory`.
#
#     memory.sh PROGRAM CALLS
#
# It does so under every command on a file of 60 nested buckets and on real ones; on 20,000 nested buckets under the
# commands that make few requests (`check` fewer than a hundred: the 300th of the process, which makes about two hundred
# before it reads FILE, isn't reached); of the many that a copy of these makes, each 1500th; and under the
# commands that recover a damaged file. Then it refuses each request of a walk, which is called again and goes on, and
# of calls that need no memory. make has made the files in out.
set -eux
. tools/try/commands.sh
program=$1
calls=$2
app=examples/app.db
deep=out/deep.db
nested=out/nested.db
damaged=out/damaged.db
found=out/found.db
sweep() {
	python3 -B tools/refuse/sweep.py "$program" out/refuse.so memory "$@"
}

sweep 1 $nested info "page 3" pages check states buckets stats list "list --from 62/62" "keys b b" "get b x" \
	"compact -o OUT" "pages --map" "buckets --sizes" "buckets b b --sizes" "list --form json" "list --form json-hex" \
	"list b b" "list b b --form json --from 62/62/62" "keys b b --form json" "compact -o OUT --etcd-snapshot"
with_lines printing.txt not_printing.txt -- sweep 1 $app "compact -o OUT --page-size 1024" \
	"compact -o OUT --etcd-snapshot"
with_lines etcd.txt -- sweep 1 examples/etcd.db "etcd-keys --form json --values" "etcd-repair -o OUT --search"
sweep 1 examples/app.list "load -o OUT" "load -o OUT --for-bbolt --page-size 1024 --sequence 7" \
	"load -o OUT --etcd-snapshot"
sweep 1 examples/leaked.db check "list --meta 1" "compact -o OUT --meta 1"
sweep 1 $deep info check buckets stats
REFUSED_CALL=memory REFUSED_NUMBER=300 LD_PRELOAD=out/refuse.so "$program" check $deep | grep -qx OK
sweep 1500 $deep "compact -o OUT"
with_lines recoveries.txt -- sweep 1 $damaged "check --all" "check --lost-and-found"
sweep 1 $found "etcd-repair -o OUT"
with_lines recoveries.txt -- sweep 1 $nested "check --all" "check --all --etcd-snapshot" "list b b --recover"
PYTHONPATH=tests:tools/format python3 -B tools/refuse/try_calls.py "$calls" out/refuse.so \
	tests/cases/call_again_and_between.cases

#!/bin/sh
# Makes files and streams fail under every command, for `make failures`.
#
#     failures.sh PROGRAM
#
# Tries files that can't be read or created, full devices, closed streams, readers that leave, and who may read a copy.
# Then each write of each command fails in turn (a write has at most seven bytes), but only each 10th of a copy, and
# each 200th of what is recovered. So do each read of FILE and the sync of OUT. A device may also take bytes again after a
# refusal: then nothing more may be written to it. make has made the files in out.
set -eux
. tools/try/commands.sh
program=$(realpath "$1")
app=examples/app.db
etcd=examples/etcd.db
listing=examples/app.list
leaked=examples/leaked.db
damaged=out/damaged.db
many_lost=out/many_lost.db
sweep() {
	python3 -B tools/refuse/sweep.py "$program" out/refuse.so "$@"
}

with_lines printing.txt -- sh tools/streams/try_failures.sh "$program" $app $leaked out/listed_long.db
sh tools/streams/try_changes.sh "$program" out/refuse.so $app
bash tools/streams/try_reading.sh "$program" "$PWD/out/refuse.so" $app

with_lines printing.txt not_printing.txt -- sweep write 1 $app
sweep write 1 $leaked check list
with_lines etcd.txt -- sweep write 1 $etcd
sweep write 200 $etcd "etcd-repair -o OUT --search"
sweep write 10 $app "compact -o OUT" "compact -o OUT --etcd-snapshot --page-size 1024"
sweep once 1 $app list "buckets --sizes"
sweep once 6000 out/listed_long.db list
sweep once 10 $app "compact -o OUT" "compact -o OUT --etcd-snapshot"
sweep write 10 $listing "load -o OUT --for-bbolt" "load -o OUT --etcd-snapshot --page-size 1024 --sequence 7"
sweep write 1 $damaged "check --all" "check --lost-and-found"
with_lines recoveries.txt -- sweep write 200 $damaged
sweep read 1 $app info list "compact -o OUT"
sweep read 1 $etcd etcd-keys etcd-check
sweep read 1 $listing "load -o OUT"
sweep sync 1 $app "compact -o OUT" "compact -o OUT --etcd-snapshot"
sweep sync 1 $listing "load -o OUT" "load -o OUT --etcd-snapshot"
sweep sync 1 $damaged "compact -o OUT --recover"
sweep sync 1 $many_lost "compact -o OUT --recover" "compact -o OUT --recover --etcd-snapshot"

rm -f out/copy.db
[ "$("$program" compact --recover -o out/copy.db $many_lost | grep -c "; lost: ")" -eq 1500 ]

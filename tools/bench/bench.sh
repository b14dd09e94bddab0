#!/bin/sh
# Times the program on large files, for `make bench`.
#
#     bench.sh PROGRAM
#
# Times `info`, `check` and the commands that print, on three databases: 256 MB with a million small entries, 200,000
# buckets in the root bucket, and 256 MB with values of 100 KB; and `check` and `states` on 1 GB with a million leaves.
# Then times compact copies of the first and the third of these, of 256 MB that are mostly free pages, and of 50,000
# buckets one within another; and what is recovered of the first, also with a thousand lost leaves. Then what is lost and
# found: of the first, of the same with a thousand lost leaves and a lost branch, and of two files that list a million free
# pages and half as many. Then etcd's commands on two stores of etcd with 149,000 revisions, whose values have 600 and 60
# bytes, and what `etcd-repair` puts back into them, if half of their branches are lost and if all are. Pages have 4,096
# bytes, as bbolt makes them on most machines, but those of the million leaves 1,024. Listings of the first and of the
# third are loaded. If Go and bbolt's source are there, bbolt's library does the same on the first two. make has made the
# files in out.
set -eux
program=$1
bbolt=out/bbolt
entry=entry-000000000000100000
time_with() {
	tool=$1
	shift
	python3 -B tools/bench/"$tool".py "$program" "$@"
}

time_with time_commands out/large.db info check states buckets pages stats list "list --form json" "list --form json-hex" \
	"keys bucket-0" "get bucket-0 $entry"
time_with time_commands out/wide.db info check states buckets pages stats list
time_with time_commands out/long.db info check buckets pages stats list "list --form json" "list --form json-hex"
time_with time_commands out/leaves.db check states
time_with time_copies out/large.db out/long.db out/sparse.db out/very_deep.db
time_with time_loads out/large.db out/long.db
time_with time_recovery out/large.db out/lost_leaves.db 1000
time_with time_found out/large.db out/lost_branch.db out/half_freed.db out/freed.db
time_with time_commands out/store.db check etcd-keys etcd-status
time_with time_commands out/short.db check etcd-keys etcd-status
time_with time_repairs out/store.db out/store_half.db out/store_all.db
time_with time_repairs out/short.db out/short_half.db out/short_all.db
tools/bbolt/build.sh
if [ -x $bbolt ]; then
	time_with compare_bbolt $bbolt out/large.db bucket-0 $entry
	time_with compare_bbolt $bbolt out/wide.db
fi

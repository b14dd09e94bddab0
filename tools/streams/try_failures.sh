#!/bin/sh
# Makes the program's files and streams fail, and its readers leave, for `make failures`; and tests
# who may read its copies.
#
#   try_failures.sh PROGRAM SOUND REFUSED LONG COMMAND..
#
# SOUND is examples/app.db, REFUSED a file that isn't sound, and LONG a sound one whose listing is
# longer than a pipe holds. Each COMMAND prints something of SOUND; its words after the first come after
# the file. Each case must have the status and the line of docs/COMMANDS.md. The first that doesn't ends
# the script with status 1.

set -u
program=$1 sound=$2 refused=$3 long=$4
shift 4
folder=$(mktemp -d)
trap 'rm -rf "$folder"' EXIT
out=$folder/out err=$folder/err copy=$folder/copy.db

# Says what is run next, and forgets what was printed before.
begin() {
	said=$*
	: >"$folder/out" >"$folder/err"
}

# Runs the program, and keeps its status and, unless they are redirected, its output and error.
run() {
	begin "$@"
	timeout 10 "$program" "$@" >"$out" 2>"$err"
	status=$?
}

# Calls `run` or `run_unread` with a COMMAND on a file.
on_file() {
	runner=$1 file=$2
	set -- $3
	name=$1
	shift
	"$runner" "$name" "$file" "$@"
}

fail() {
	echo "$said: $1: status $status" >&2
	cat "$folder/err" >&2
	exit 1
}

# The last run reported this fault and nothing else.
want_fault() {
	[ "$status" -eq 1 ] || fail "wants status 1"
	[ "$(cat "$folder/err")" = "error: $1" ] || fail "wants error: $1"
	[ ! -s "$folder/out" ] || fail "wants no output"
}

# OUT exists and isn't accepted.
want_refused_copy() {
	[ -f "$copy" ] || fail "made no OUT"
	"$program" check "$copy" >"$folder/checked" 2>&1 && fail "OUT is accepted"
	rm "$copy"
}

# OUT exists and lists what its source lists.
want_whole_copy() {
	"$program" list "$copy" >"$folder/copied" && "$program" list "$sound" | cmp -s - "$folder/copied" ||
		fail "OUT isn't the copy"
	rm "$copy"
}

# OUT is a snapshot.
want_whole_snapshot() {
	"$program" check --etcd-snapshot "$copy" >"$folder/checked" 2>&1 || fail "OUT is no snapshot"
}

# OUT has a whole database, but not the hash of a snapshot.
want_cut_snapshot() {
	"$program" check "$copy" >"$folder/checked" 2>&1 || fail "OUT isn't whole"
	"$program" check --etcd-snapshot "$copy" >"$folder/checked" 2>&1 && fail "OUT is accepted"
	head -n 1 "$folder/checked" | grep -qx "snapshot hash missing" || fail "OUT has a hash"
	rm "$copy"
}

# If FILE has a name of 250 bytes, one line is reported, too.
long_name() {
	named=$folder/$(printf %0250d 0)
	cp "$sound" "$named"
	out=/dev/full
	for command in "$@" "compact -o $copy"; do
		on_file run "$named" "$command"
		want_fault "write failed"
	done
	rm "$named" "$copy"
	for command in "$@" "compact -o $copy"; do
		on_file run "$named" "$command"
		want_fault "cannot read $named"
	done
	out=$folder/out
	run compact -o "$named/copy" "$sound"
	want_fault "cannot make $named/copy"
}

# Standard output that can't be written is reported by each command.
full_output() {
	out=/dev/full
	for command in "$@"; do
		on_file run "$sound" "$command"
		want_fault "write failed"
	done
	run check "$refused"
	want_fault "write failed"
	run --help
	want_fault "write failed"
	run compact -o "$copy" "$sound"
	want_fault "write failed"
	want_whole_copy
	run compact --etcd-snapshot -o "$copy" "$sound"
	want_fault "write failed"
	want_whole_snapshot
	want_whole_copy
	out=$folder/out
}

# Closed standard output is reported too; OUT isn't written in its place.
closed_output() {
	for command in list check "compact -o $copy"; do
		begin $command
		timeout 10 "$program" $command "$sound" >&- 2>"$err"
		status=$?
		want_fault "write failed"
	done
	want_whole_copy
}

# The last run reported nothing, and ended with status 1.
want_silence() {
	[ "$status" -eq 1 ] || fail "wants status 1"
	[ ! -s "$folder/err" ] || fail "wants no error"
	[ ! -s "$folder/out" ] || fail "wants no output"
}

# A reader that leaves early gets its line, and the program ends and reports nothing.
leaving_reader() {
	begin list "$long"
	{
		timeout 10 "$program" list "$long" 2>"$err"
		echo $? >"$folder/status"
	} | head -n 1 >"$folder/first"
	status=$(cat "$folder/status")
	want_silence
	"$program" list "$long" >"$folder/listed"
	head -n 1 "$folder/listed" | cmp -s - "$folder/first" || fail "wants its first line"
}

# Runs the program with standard output on a pipe whose only reader has left.
run_unread() {
	begin "$@"
	mkfifo "$folder/pipe"
	true <"$folder/pipe" &
	exec 4>"$folder/pipe"
	wait $!
	timeout 10 "$program" "$@" >&4 2>"$err"
	status=$?
	exec 4>&-
	rm "$folder/pipe"
}

# A reader that has left before anything is written isn't reported either, whatever the command; OUT
# is whole then. A fault that has nothing to do with it is reported.
left_reader() {
	for command in "$@"; do
		on_file run_unread "$sound" "$command"
		want_silence
	done
	run_unread list "$long"
	want_silence
	run_unread check "$refused"
	want_silence
	run_unread --help
	want_silence
	run_unread compact -o "$copy" "$sound"
	want_silence
	want_whole_copy
	run_unread get "$sound" settings nothing
	want_fault "key not found"
}

# The last run's status and output are those that were kept.
want_same() {
	[ "$status" -eq "$was" ] || fail "wants status $was"
	cmp -s "$out" "$folder/was" || fail "wants the same output"
}

# Standard error that is full or closed changes neither the status nor the output.
same_without_error() {
	run "$@"
	was=$status
	mv "$out" "$folder/was"
	err=/dev/full
	run "$@"
	err=$folder/err
	want_same
	timeout 10 "$program" "$@" >"$out" 2>&-
	status=$?
	want_same
}

failing_error() {
	same_without_error check "$sound"
	same_without_error check "$refused"
	same_without_error list "$refused"
	same_without_error get "$sound" settings nothing
	same_without_error info "$folder/missing"
	same_without_error page "$sound" x
	same_without_error nonsense
}

# OUT on a device with too little room. A limit on the length of files stands for it; the signal by
# which the system would end the program is ignored.
full_target() {
	for blocks in 0 1 8 16; do
		begin compact with "$blocks" blocks
		(
			trap '' XFSZ
			ulimit -f "$blocks"
			timeout 10 "$program" compact -o "$copy" "$sound" 2>&1 >"$out"
			echo $?
		) | cat >"$folder/printed"
		status=$(tail -n 1 "$folder/printed")
		head -n 1 "$folder/printed" >"$err"
		want_fault "write failed"
		want_refused_copy
	done
}

# OUT has room for the database of a snapshot, which has 20,480 bytes, and for none of its hash.
full_before_hash() {
	begin compact --etcd-snapshot with 40 blocks
	(
		trap '' XFSZ
		ulimit -f 40
		timeout 10 "$program" compact --etcd-snapshot -o "$copy" "$sound" 2>&1 >"$out"
		echo $?
	) | cat >"$folder/printed"
	status=$(tail -n 1 "$folder/printed")
	head -n 1 "$folder/printed" >"$err"
	want_fault "write failed"
	want_cut_snapshot
}

# OUT that can't be created, or exists.
unmade_target() {
	for target in "$folder/missing/copy.db" "$sound/copy.db" /proc/copy.db; do
		run compact -o "$target" "$sound"
		want_fault "cannot make $target"
	done
	cp "$sound" "$folder/same.db"
	ln -s missing "$folder/link"
	for target in "$folder/same.db" "$folder" "$folder/link" /dev/full; do
		run compact -o "$target" "$folder/same.db"
		want_fault "output exists"
	done
	cmp "$sound" "$folder/same.db" || fail "changed its file"
	[ ! -e "$folder/missing" ] || fail "made what a link leads to"
}

# OUT has the permission bits of FILE, less those that the umask removes, whether FILE is sound or not. The bits that
# run a program as its owner or group, and the sticky bit, aren't copied.
copied_permissions() {
	for file in "$sound" "$refused"; do
		for bits in "077 600 600" "022 600 600" "022 640 640" "022 400 400" "022 644 644" \
			"022 666 644" "022 755 755" "022 777 755" "000 666 666" "027 644 640" "022 4755 755" "022 2750 750" "022 1644 644"; do
			set -- $bits
			cp "$file" "$folder/file.db"
			chmod "$2" "$folder/file.db"
			was=$(umask)
			umask "$1"
			for command in compact "compact --etcd-snapshot"; do
				run $command -o "$copy" "$folder/file.db"
				made=$(stat -c %a "$copy")
				[ "$made" = "$3" ] || fail "FILE has mode $2, the umask is $1: wants mode $3, not $made"
				rm -f "$copy"
			done
			umask "$was"
			rm -f "$folder/file.db"
		done
	done
}

# FILE that can't be read; OUT isn't created then.
unread_file() {
	for unread in "$folder/missing" "$folder" "$sound/file" ""; do
		for command in "$@" "compact -o $copy"; do
			on_file run "$unread" "$command"
			want_fault "cannot read $unread"
		done
	done
	[ ! -e "$copy" ] || fail "made OUT"
}

full_output "$@"
long_name "$@"
closed_output
leaving_reader
left_reader "$@"
failing_error
full_target
full_before_hash
unmade_target
copied_permissions
unread_file "$@"
echo "failures: all reported"

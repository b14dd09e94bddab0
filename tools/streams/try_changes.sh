#!/bin/sh
# Changes FILE while the program reads it, for `make failures`.
#
#   try_changes.sh PROGRAM LIBRARY SOUND
#
# LIBRARY changes a file that was read to its end (refuse.c), and SOUND is examples/app.db. The first case that doesn't
# end as docs/COMMANDS.md says ends the script with status 1.

set -u
program=$1 library=$2 sound=$3
folder=$(mktemp -d)
trap 'rm -rf "$folder"' EXIT
file=$folder/file.db copy=$folder/copy.db

fail() {
	echo "$1" >&2
	cat "$folder/out" "$folder/err" >&2
	exit 1
}

# Runs a command on a fresh copy of SOUND that is changed so, as often as said.
run_changed() {
	how=$1 times=$2
	shift 2
	cp "$sound" "$file"
	LD_PRELOAD=$library REFUSED_CALL=$how REFUSED_NUMBER=$times timeout 10 "$program" "$@" >"$folder/out" 2>"$folder/err"
	status=$?
}

# FILE is read three times at most.
for how in touch wait append; do
	for times in 0 1 2; do
		run_changed $how $times check "$file"
		[ "$status $(cat "$folder/out")" = "0 OK" ] || fail "$how $times: wants OK"
	done
	for command in check list stats pages "compact -o $copy" "compact --recover -o $copy"; do
		run_changed $how 3 $command "$file"
		[ "$status" -eq 1 ] && [ ! -s "$folder/out" ] || fail "$how: $command: wants status 1 and no output"
		[ "$(cat "$folder/err")" = "error: file changed while it was read" ] || fail "$how: $command: wants its line"
		[ ! -e "$copy" ] || fail "$how: $command: made OUT"
	done
	# `info` needs the metas alone, which have checksums.
	run_changed $how 3 info "$file"
	[ "$status" -eq 0 ] || fail "$how: info: wants status 0"
done

# What is no regular file is read once, and not looked at.
mkfifo "$folder/pipe"
cat "$sound" >"$folder/pipe" &
timeout 10 "$program" check "$folder/pipe" >"$folder/out" 2>"$folder/err" || fail "a FIFO: wants OK"
timeout 10 "$program" check /dev/stdin <"$sound" >"$folder/out" 2>"$folder/err" || fail "/dev/stdin: wants OK"
cat "$sound" | timeout 10 "$program" check /dev/stdin >"$folder/out" 2>"$folder/err" || fail "a pipe: wants OK"

# `info` reads no more of FILE than its metas need: nothing comes after them, and the FIFO stays open.
size=$("$program" info "$sound" | sed -n 's/^page size //p')
mkfifo "$folder/metas"
(head -c $((size + 80)) "$sound" && exec sleep 20) >"$folder/metas" &
timeout 10 "$program" info "$folder/metas" >"$folder/out" 2>"$folder/err" || fail "a FIFO with the metas alone: info waits for more"
kill $!
"$program" info "$sound" | cmp -s - "$folder/out" || fail "a FIFO with the metas alone: wants the lines of the file"
echo "changes: all reported"

#!/bin/bash
# Reads large FILEs with little memory, and FILEs of odd names, for `make failures`.
#
#   try_reading.sh PROGRAM LIBRARY SOUND
#
# LIBRARY changes a file that was read to its end (refuse.c), and SOUND is examples/app.db. The first case that doesn't
# end as docs/COMMANDS.md says ends the script with status 1.

set -u
program=$1 library=$2 sound=$3
folder=$(mktemp -d)
trap 'rm -rf "$folder"' EXIT

fail() {
	echo "$1" >&2
	cat "$folder/out" "$folder/err" >&2
	exit 1
}

# Runs the program with so many KiB of addresses, and compares its status and what it prints.
within() {
	kib=$1 status=$2 wanted=$3
	shift 3
	(ulimit -v "$kib" && exec timeout 20 "$@") >"$folder/out" 2>"$folder/err"
	[ $? -eq "$status" ] && [ "$(cat "$folder/out" "$folder/err")" = "$wanted" ] || fail "$kib KiB: $*: wants $wanted"
}

# A sound file of 80 MB: bytes after its last page are ignored. It has to fit into 1.1 times its length, and the
# program itself.
large=$folder/large.db
cp "$sound" "$large"
truncate -s 80000000 "$large"
room=$((80000000 / 1024 * 11 / 10 + 10000))
within $room 0 OK "$program" check "$large"
# If FILE is changed while it is read, it is let go before it is read again.
within $room 0 OK env LD_PRELOAD="$library" REFUSED_CALL=touch REFUSED_NUMBER=2 "$program" check "$large"
# A pipe has no length. It takes more room, but not without end.
within 300000 0 OK sh -c 'cat "$1" | "$2" check /dev/stdin' sh "$large" "$program"

# Want of memory is no fault of FILE.
memory="error: out of memory"
within $((room / 2)) 1 "$memory" "$program" check "$large"
within 120000 1 "$memory" "$program" check /dev/zero
truncate -s 1T "$folder/huge.db"
within 120000 1 "$memory" "$program" check "$folder/huge.db"
within 120000 1 "$memory" "$program" compact -o "$folder/copy.db" "$folder/huge.db"
[ ! -e "$folder/copy.db" ] || fail "OUT is made of what isn't read"

# A name can't break the line of its fault, or colour the terminal.
cd "$folder" || exit 1
for name in $'a\nb' $'\e[31mred' $'tab\t\x7f' $'\u009b1m' plain 'back\slash' $'\u00e4'; do
	shown=$(printf %s "$name" | sed -z 's/\n/\\n/g; s/\t/\\t/g; s/\x1b/\\u{1b}/g; s/\x7f/\\u{7f}/g; s/\xc2\x9b/\\u{9b}/g')
	within 300000 1 "error: cannot read $shown" "$program" check "$name"
	within 300000 1 "error: cannot make no/$shown" "$program" compact -o "no/$name" "$OLDPWD/$sound"
done
echo "reading: memory and names as documented"

#!/bin/sh
# Tries what `make install` put below a folder, for `make installed`: the launcher runs the program.
#
#     installed.sh PROGRAM FOLDER
#
# Words, streams and the status must be those of the program, also if the launcher is called by a link; the process stays
# the same, so that a signal reaches the program; and what GLIBC_TUNABLES had must be there.
set -eux
program=$1
folder=$2
launcher=$folder/bin/luntsegi
elsewhere=$(mktemp -d)
trap 'rm -r "$elsewhere"' EXIT
linked=$elsewhere/luntsegi
ln -s "$PWD/$launcher" "$linked"

# Runs a command line by the program and by the launcher. Both must end and print the same.
same() {
	status=0
	"$program" "$@" >out/direct 2>out/direct.err || status=$?
	for one in "$launcher" "$linked"; do
		launched=0
		"$one" "$@" >out/launched 2>out/launched.err || launched=$?
		[ $launched -eq $status ]
		cmp out/direct out/launched
		cmp out/direct.err out/launched.err
	done
}

same --version
same --help
same check examples/app.db
same get examples/app.db settings theme
same get examples/app.db settings ""
same get examples/app.db "settings  and more" '*'
same check --all examples/leaked.db
same info out/no.db
same list
same load -o out/no/copy.db /dev/stdin </dev/null

# GLIBC_TUNABLES of a process that waits for a text, once its program is the installed one. Then a signal ends it. glibc
# writes zeros over the colons.
launched() {
	rm -f out/text
	mkfifo out/text
	"$@" "$launcher" load -o out/waits.db out/text 2>out/launched.err &
	process=$!
	until [ "$(readlink /proc/$process/exe)" = "$PWD/$folder/libexec/luntsegi" ]; do
		kill -0 $process
	done
	tr '\0' ':' </proc/$process/environ | grep -oE 'GLIBC_TUNABLES=[^:]*(:glibc[^:]*)*'
	kill -TERM $process
	ended=0
	wait $process || ended=$?
	[ $ended -eq $((128 + 15)) ]
}

[ "$(launched env -u GLIBC_TUNABLES)" = GLIBC_TUNABLES=glibc.malloc.hugetlb=1 ]
[ "$(launched env GLIBC_TUNABLES=glibc.malloc.check=0)" = GLIBC_TUNABLES=glibc.malloc.check=0:glibc.malloc.hugetlb=1 ]
[ "$(launched env GLIBC_TUNABLES=glibc.malloc.hugetlb=0)" = GLIBC_TUNABLES=glibc.malloc.hugetlb=0 ]

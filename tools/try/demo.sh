#!/bin/sh
# Shows what the program does with half of a real database, for `make demo`. It is compiled without its proofs.
set -eu
echo "Luntsegi is compiled, which takes about a minute." >&2
program=$(python3 -B tools/quick/keep_tried.py out/try)
head -c 16384 examples/app.db >out/half.db

# Runs a command line, and shows it before. With losses its status is 1.
show() {
	echo "\$ luntsegi $*"
	"$program" "$@" || [ $? -eq 1 ]
	echo
}

show list examples/app.db settings --form json
echo "\$ head -c 16384 examples/app.db > out/half.db"
show check --all out/half.db
show list --recover --form json out/half.db settings
cat <<-END
	This program is unproved, and tests each access to memory. So it is about a thousand times slower than the proved one,
	which make build makes. Try it on small files, of a few MB at most:
	    $program --help
END

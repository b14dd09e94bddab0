# For the scripts beside this file, which read it. The files of commands have one on each line; its words after the
# first come after FILE. Those of printing.txt print something of examples/app.db, those of not_printing.txt don't,
# those of etcd.txt print something of examples/etcd.db, and those of recoveries.txt recover a damaged file.

# Calls a command with the lines of files as further words, after its own: with_lines FILE.. -- COMMAND..
with_lines() {
	files=
	while [ "$1" != -- ]; do
		files="$files tools/try/$1"
		shift
	done
	shift
	while IFS= read -r line; do
		set -- "$@" "$line"
	done <<-END
		$(cat $files)
	END
	"$@"
}

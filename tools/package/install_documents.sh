#!/bin/sh
# Installs the documents and the examples in a folder, for `make install`.
#
#     install_documents.sh FOLDER
#
# Installed documents have no links to the sources, which aren't there. Each other link must lead to one of them.
set -eu
folder=$1
install -D -m 644 -t "$folder" README.md
install -D -m 644 -t "$folder/docs" docs/*.md
install -D -m 644 -t "$folder/examples" examples/*
sed -E -i 's#\[([^]]*)\]\((\.\./)?(crates|tests|tools)/[^)]*\)#\1#g' "$folder/README.md" "$folder"/docs/*.md

grep -oE '\]\([^)#:]+' "$folder/README.md" "$folder"/docs/*.md | while IFS= read -r link; do
	document=${link%%:*}
	to=${link##*](}
	[ -e "$(dirname "$document")/$to" ] || { echo "$document: no $to" >&2; exit 1; }
done

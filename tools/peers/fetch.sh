#!/bin/sh
# Fetches the newest bbolt and etcd of Debian's newer suites into out/peers, for comparisons. Nothing is installed.
#
#     fetch.sh
#
# apt-get, with a list of its own, downloads packages, which are unpacked into out/peers/bbolt/tree (bbolt's source with its
# own command, and Go) and out/peers/etcd/tree. A file `version` beside each says what it is, and out/peers/bbolt/bbolt is
# bbolt's own command. What is there isn't fetched again: remove out/peers for newer ones. Of what can't be fetched one
# line is printed; the status is 0, since the comparisons then use what is installed. Other systems than Debian have
# nothing else.
set -eu
tools=$PWD/tools/peers
peers=$PWD/out/peers
log=$peers/log
cache=$PWD/out/go
suites="sid trixie"
keyring=/usr/share/keyrings/debian-archive-keyring.gpg

apt() {
	"$@" -qq -o Dir::Etc::sourcelist="$peers/sources.list" -o Dir::Etc::sourceparts=- -o Dir::State::lists="$peers/lists" \
		-o Dir::Cache="$peers/cache" -o APT::Sandbox::User=root -o Acquire::Retries=1 -o Acquire::http::Timeout=30
}

# Where this machine gets its packages.
mirror() {
	uri=$(apt-get indextargets --format '$(REPO_URI)' 'Created-By: Packages' | grep -m 1 '/debian/*$' || true)
	echo "${uri:-http://deb.debian.org/debian}"
}

update_lists() {
	mkdir -p "$peers/lists/partial" "$peers/cache/archives/partial"
	for suite in $suites; do
		echo "deb [signed-by=$keyring] $uri $suite main"
		echo "deb-src [signed-by=$keyring] $uri $suite main"
	done >"$peers/sources.list"
	apt apt-get update
}

# Downloads and unpacks packages. The version is that of the first.
unpack() (
	folder=$1
	shift
	mkdir -p "$folder/tree" && cd "$folder/tree" && apt apt-get download "$@" || exit
	for package in *.deb; do
		dpkg-deb -x "$package" . || exit
	done
	dpkg-deb -f "$1"_*.deb Version | "$tools/upstream.sh" >"$folder/new"
	rm ./*.deb
	replace_links "$PWD"
)

# Puts in the place of each link what it leads to in this folder. rt refuses a repository with a link anywhere.
replace_links() {
	find "$1" -type l | while IFS= read -r link; do
		leads_to=$(readlink -f "$link")
		rm "$link"
		case $leads_to in
		"$1"/*) [ ! -e "$leads_to" ] || cp -rlL "$leads_to" "$link" ;;
		esac
	done
}

fetch_etcd() {
	unpack "$1" etcd-server etcd-client
}

# Go as the newest suite has it by default, and what bbolt's command and its tests need.
fetch_bbolt() {
	go=$(apt apt-cache depends golang-go | awk '/Depends: golang-[0-9.]*-go/ { print $2; exit }')
	[ -n "$go" ] || return
	unpack "$1" golang-github-coreos-bbolt-dev "$go" "${go%-go}-src" golang-golang-x-sys-dev golang-golang-x-sync-dev \
		golang-github-spf13-cobra-dev golang-github-spf13-pflag-dev golang-github-inconshreveable-mousetrap-dev \
		golang-github-stretchr-testify-dev golang-github-davecgh-go-spew-dev golang-github-pmezard-go-difflib-dev \
		golang-github-stretchr-objx-dev golang-gopkg-yaml.v3-dev golang-github-etcd-io-gofail-dev || return
	build_command "$1"
}

# Debian's package has bbolt's library alone; its source has the command.
build_command() {
	(cd "$1" && apt apt-get source --download-only golang-github-coreos-bbolt && tar xf ./*.orig.tar.*) || return
	gopath=$1/tree/usr/share/gocode
	source=$gopath/src/go.etcd.io/bbolt
	cp -r "$1"/bbolt-*/cmd "$source/" || return
	rm -r "$1"/bbolt-* "$1"/*.orig.tar.* "$1"/*.debian.tar.* "$1"/*.dsc
	goroot=$(echo "$1"/tree/usr/lib/go-*)
	(cd "$source/cmd/bbolt" && PATH=$goroot/bin:$PATH GOROOT=$goroot GOPATH=$gopath GO111MODULE=off GOTOOLCHAIN=local \
		GOCACHE=$cache go build -o "$1/bbolt" .)
}

# Fetches one of both, if it isn't there.
fetch() {
	folder=$peers/$1
	[ ! -e "$folder/version" ] || return 0
	rm -rf "$folder"
	if "fetch_$1" "$folder" >>"$log" 2>&1; then
		mv "$folder/new" "$folder/version"
	else
		rm -rf "$folder"
		missing="$missing $1"
	fi
}

missing=
[ ! -e "$peers/bbolt/version" ] || [ ! -e "$peers/etcd/version" ] || exit 0
mkdir -p "$peers"
if command -v apt-get >/dev/null && command -v dpkg-deb >/dev/null && [ -e $keyring ]; then
	uri=$(mirror)
	update_lists >"$log" 2>&1 || true
	fetch bbolt
	fetch etcd
	rm -rf "$peers/lists" "$peers/cache"
else
	missing=" bbolt etcd"
fi
[ -z "$missing" ] || echo "peers: not fetched:$missing. What is installed is used (see out/peers/log)"

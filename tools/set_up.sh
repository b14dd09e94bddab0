#!/bin/sh
# Installs what `make test` needs beyond the Rattle toolchain: Debian's packages, if apt-get is there and this runs as
# root. Then it says, a line each, what is still missing and what is left out for that. Without Python or a C compiler
# the gate can't run: the status is 1 then.
set -u
bbolt=${BBOLT_GOPATH:-/usr/share/gocode}/src/go.etcd.io/bbolt

# The packages that aren't there yet.
missing() {
	command -v python3 >/dev/null || echo python3
	command -v cc >/dev/null || echo gcc libc6-dev
	command -v mandoc >/dev/null || echo mandoc
	command -v zsh >/dev/null || echo zsh
	command -v fish >/dev/null || echo fish
	command -v valgrind >/dev/null || echo valgrind
	command -v jq >/dev/null || echo jq
	command -v go >/dev/null || echo golang-go
	[ -d "$bbolt" ] || echo golang-github-coreos-bbolt-dev
	command -v etcd >/dev/null || echo etcd-server
	command -v etcdctl >/dev/null || echo etcd-client
}

packages=$(missing)
if [ -n "$packages" ] && [ "$(id -u)" -eq 0 ] && command -v apt-get >/dev/null; then
	export DEBIAN_FRONTEND=noninteractive
	{ apt-get update && apt-get install -y --no-install-recommends $packages; } >/dev/null 2>&1
fi
status=0
for package in $(missing); do
	case $package in
	python3 | gcc) echo "set-up: $package is missing: the gate can't run" && status=1 ;;
	mandoc) echo "set-up: mandoc is missing: the manual page isn't linted" ;;
	zsh | fish) echo "set-up: $package is missing: its completions are not tried" ;;
	valgrind) echo "set-up: valgrind is missing: no instructions are counted" ;;
	jq) echo "set-up: jq is missing: two lines of docs/GUIDE.md aren't run" ;;
	golang-*) echo "set-up: $package is missing: nothing is compared with an installed bbolt" ;;
	etcd-*) echo "set-up: $package is missing: nothing is compared with an installed etcd" ;;
	esac
done
exit "$status"

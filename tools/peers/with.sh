#!/bin/sh
# Runs a command with one of the versions of bbolt or of etcd that there are.
#
#     with.sh newest|other bbolt|etcd COMMAND..
#
# The newest is that in out/peers, if tools/peers/fetch.sh got one, and otherwise the installed one. The other is the
# installed one, if the newest has another version: if not, the command isn't run. The version is printed first, and the
# command finds it in PEER.
set -eu
place=$1
peer=$2
shift 2
case $peer in
bbolt) package=golang-github-coreos-bbolt-dev ;;
etcd) package=etcd-server ;;
esac
folder=$PWD/out/peers/$peer
fetched=$(cat "$folder/version" 2>/dev/null || true)
installed=$(dpkg-query -W -f '${Version}' $package 2>/dev/null | tools/peers/upstream.sh)

use_fetched() {
	PEER=$fetched
	if [ "$peer" = bbolt ]; then
		GOROOT=$(echo "$folder"/tree/usr/lib/go-*)
		BBOLT_GOPATH=$folder/tree/usr/share/gocode
		PATH=$GOROOT/bin:$PATH
		export GOROOT BBOLT_GOPATH
	else
		PATH=$folder/tree/usr/bin:$PATH
	fi
}

if [ "$place" = newest ] && [ -n "$fetched" ]; then
	use_fetched
elif [ "$place" = newest ] || { [ -n "$fetched" ] && [ -n "$installed" ] && [ "$fetched" != "$installed" ]; }; then
	PEER=$installed
else
	exit 0
fi
export PEER PATH
echo "with $peer $PEER:"
exec "$@"

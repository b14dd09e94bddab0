#!/bin/sh
# Prints something of the newest release in docs/CHANGELOG.md.
#
#     release.sh version|time|date
#
# The time is in seconds since 1970. It is SOURCE_DATE_EPOCH, if that is set, and otherwise the beginning of the
# release's day. So the sources need no history.
set -eu
release=$(sed -n 's/^## //p' docs/CHANGELOG.md | head -n 1)
seconds() {
	echo "${SOURCE_DATE_EPOCH:-$(date -u -d "${release#*, }" +%s)}"
}

case $1 in
version) echo "${release%%, *}" ;;
time) seconds ;;
date) date -u -d "@$(seconds)" +%F ;;
esac

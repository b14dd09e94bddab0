#!/bin/sh
# Builds out/bbolt, a program over bbolt's own library. It needs Go, and bbolt's source where Debian's
# package puts it. If one of them is missing, it says so and builds nothing.
set -eu
rm -f out/bbolt
sources=${BBOLT_GOPATH:-/usr/share/gocode}
if ! command -v go > /dev/null || [ ! -d "$sources/src/go.etcd.io/bbolt" ]; then
    echo "bbolt: not built, since Go or bbolt's source isn't there (golang-go, golang-github-coreos-bbolt-dev)"
    exit 0
fi
mkdir -p out
GO111MODULE=off GOPATH=$sources GOCACHE=$PWD/out/go go build -o out/bbolt ./tools/bbolt

#!/bin/sh
# Runs luntsegi, with malloc asked to use large pages where the kernel gives them on request: reading FILE is faster then.
# What GLIBC_TUNABLES has is kept, and a choice of large pages there counts.
set -u
self=$0
[ ! -h "$self" ] || self=$(readlink -f "$self")
case ${GLIBC_TUNABLES-} in
*glibc.malloc.hugetlb=*) ;;
*) export GLIBC_TUNABLES="${GLIBC_TUNABLES:+$GLIBC_TUNABLES:}glibc.malloc.hugetlb=1" ;;
esac
exec "${self%/*}/../libexec/luntsegi" "$@"

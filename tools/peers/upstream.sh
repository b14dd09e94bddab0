#!/bin/sh
# Reads the version of a Debian package, and prints that of the program in it.
sed -E 's/^[0-9]+://; s/-[^-]*$//; s/[+~].*//'

#!/bin/sh
# Runs the reference cases of the last stage in the folder CASES, if they are there, over PROGRAM. Fails where one differs.
#
# usage: tests/reference-cases.sh CASES PROGRAM
set -u
cases=$1
program=$2
[ -x "$cases/run" ] || exit 0
exec "$cases/run" 20 "$program"

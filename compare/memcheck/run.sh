#!/bin/sh
# Measures Memcheck's V bits with vbits.c and its reports with events.c, and compares both with
# the checker's.
# Usage: run.sh PROGRAM   PROGRAM is the built memcheck.
set -eu
here=$(cd "$(dirname "$0")" && pwd)

if [ $# -ne 1 ]; then
    echo "usage: run.sh PROGRAM" >&2
    exit 1
fi
if ! command -v valgrind >/dev/null || ! echo '#include <valgrind/memcheck.h>' | gcc -E - >/dev/null 2>&1; then
    echo "run.sh: valgrind or its header valgrind/memcheck.h is not installed; nothing measured" >&2
    exit 2
fi

work=$(mktemp -d)
trap 'rm -rf "$work"' EXIT
gcc -O1 -g -Wall -Wextra -Werror -o "$work/vbits" "$here/vbits.c" "$here/events.c"

# measure NAME WHAT OPTION...: vbits' lines (all, or the events alone) go to NAME, reports to a log.
measure() {
    name=$1 what=$2
    shift 2
    valgrind --tool=memcheck -q --log-file="$work/$name.log" "$@" "$work/vbits" "$what" >"$work/$name"
}
unset VALGRIND_OPTS
measure no all --expensive-definedness-checks=no
measure auto all --expensive-definedness-checks=auto
measure yes all --expensive-definedness-checks=yes
measure plain all --expensive-definedness-checks=no --vex-iropt-level=0
measure strict events --expensive-definedness-checks=no --partial-loads-ok=no

valgrind --version
"$1" no="$work/no" auto="$work/auto" yes="$work/yes" plain="$work/plain" strict="$work/strict"

#!/usr/bin/env bash
# Builds the example host and runs it: bash host/example.sh [EXERCISE [FIRST SECOND]]. Without tables of texts it takes the Slovak and the English one,
# which it makes, and without an exercise one of tests/. Ends as the example does: 1 where the exercise is refused, 2 where something can't be read.
set -eu
case $# in
0 | 1 | 3) ;;
*) echo "usage: bash host/example.sh [EXERCISE [FIRST SECOND]], where FIRST and SECOND are tables of texts" >&2; exit 2 ;;
esac
root=$(dirname -- "$0")/..
made=$root/target
[ $# -gt 0 ] || set -- "$root/tests/exercises/04.ex"
if [ $# = 1 ]; then
    bash "$root/texts/tables.sh"
    set -- "$1" "$made/texts/slovak.table" "$made/texts/english.table"
fi
sh "$root/host/build.sh" "$made/host/example" "$root/host/example.c"
exec sh "$root/host/run.sh" "$made/host/example" "$@"

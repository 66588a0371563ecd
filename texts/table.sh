#!/usr/bin/env bash
# Makes a table of texts of lines, one message a line: bash texts/table.sh LINES TABLE. LINES of - are standard input.
# Where the lines are bad or the table can't be made it says why, ends with 1 and leaves TABLE as it is.
# Where TABLE can't be written whole it says so and ends with 1.
set -eu
[ $# = 2 ] || { echo "usage: bash texts/table.sh LINES TABLE, where LINES is a file, or - for standard input" >&2; exit 2; }
root=$(dirname -- "$0")/..
[ "$1" = - ] || { exec <"$1"; } 2>/dev/null || { echo "$1 can't be opened: see that it is there and that you may read it" >&2; exit 1; }
bash "$root/prove.sh" table
made=$(mktemp)
trap 'rm -f "$made"' EXIT
failed=0
# the program has no status: a table was made if nothing is told, which comes by a pipe, since a disk may be full for both
told=$(sh "$root/host/run.sh" "$root/crates/table/out/table" 2>&1 >"$made") || failed=1
if [ -n "$told" ] || [ "$failed" = 1 ]; then
    echo "$told" >&2
    exit 1
fi
cat "$made" >"$2"

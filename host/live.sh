#!/usr/bin/env bash
# Builds the small cab desk and runs it: bash host/live.sh [--fast]. It tells its keys; host/live.c says how it takes them from a file. Ends as it does.
set -eu
case $* in
'' | --fast | --help) ;;
*) echo "usage: bash host/live.sh [--fast]" >&2; exit 2 ;;
esac
root=$(dirname -- "$0")/..
sh "$root/host/build.sh" "$root/target/host/live" "$root/host/live.c"
exec sh "$root/host/run.sh" "$root/target/host/live" "$@"

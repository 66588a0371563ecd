#!/bin/sh
# Runs a program of crates/NAME/out/ or one made by host/build.sh: sh host/run.sh PROGRAM ARGUMENTS.. Both are for x86-64.
set -eu

[ $# -ge 1 ] || { echo "usage: sh host/run.sh PROGRAM ARGUMENTS.." >&2; exit 2; }
[ -f "$1" ] || { echo "there is no $1: \`bash prove.sh NAME\` builds crates/NAME/out/NAME, \`sh host/build.sh OUT SOURCES..\` a program in C" >&2; exit 2; }
exec "$@"

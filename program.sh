#!/usr/bin/env bash
# Runs one of the programs: bash program.sh NAME ARGUMENTS.. The first call proves and builds it and tells how far it is; later ones only look whether
# something changed.
set -eu
here=$(dirname -- "$0")
name=${1-}
if [ ! -f "$here/crates/$name/src/main.rt" ]; then
    programs=$(cd "$here" && printf '%s\n' crates/*/src/main.rt | cut -d/ -f2 | paste -sd' ')
    echo "usage: bash program.sh NAME ARGUMENTS.., where NAME is one of: $programs" >&2
    exit 2
fi
shift
bash "$here/prove.sh" "$name"
exec sh "$here/host/run.sh" "$here/crates/$name/out/$name" "$@"

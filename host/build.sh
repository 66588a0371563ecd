#!/bin/sh
# Builds a C program against the archive: sh host/build.sh OUT SOURCES.. (compiler options may stand among the sources); without words the archive alone.
# live.c and example.c stand alone; which of the sources in host/tests/ go together test.sh shows.
# The archive is for x86-64. It is made where it is missing or older than a source under crates/.
# LIBRARY=".." is options that say where header and archive are, such as what pkg-config prints; without it they are those of this tree.
# CC names the compiler, and CFLAGS adds options. Debian packages: gcc and libc6-dev.
set -eu

[ $# != 1 ] || { echo "usage: sh host/build.sh [OUT SOURCES..]" >&2; exit 2; }
objects="foldharbor_c foldharbor_back_c foldharbor_exercise_c foldharbor_why_c" # of the archive, and the crates that they are made of
here=$(CDPATH='' cd -- "$(dirname -- "$0")" && pwd)
root=$(dirname -- "$here")
archive=$root/target/archive/libfoldharbor.a

# out/ is rt's own, and each crate's folder changes with it
is_new() {
    [ -f "$archive" ] && [ ! "$root/crates.txt" -nt "$archive" ] &&
        [ -z "$(find "$root/crates" -mindepth 2 -name out -prune -o -newer "$archive" -print -quit)" ]
}
if [ -z "${LIBRARY-}" ] && ! is_new; then
    echo "the archive is missing or older than a source: it is proved and made first" >&2
    rm -rf -- "$root/target/archive"
    for crate in $objects; do
        bash "$root/prove.sh" "$crate"
    done
    mkdir -p -- "$root/target/archive"
    kit=$(dirname -- "$(rt doc)")
    for crate in $objects; do
        "$kit/toolchain/bin/llvm-ar" qcL "$archive.part" "$root/crates/$crate/out/lib$crate.a"
    done
    mv -- "$archive.part" "$archive"
fi
[ $# != 0 ] || exit 0

compiler=${CC:-cc}
command -v "${compiler%% *}" >/dev/null || { echo "no compiler $compiler: install it, or name yours by CC=.." >&2; exit 2; }
out=$1
shift
mkdir -p -- "$(dirname -- "$out")"
# LIBRARY, CC and CFLAGS are lists of words
if [ -n "${LIBRARY-}" ]; then
    # shellcheck disable=SC2086
    set -- "$@" $LIBRARY
else
    set -- -I "$here" "$@" "$archive"
fi
# libm is for the root in host/tests/model.c: the archive needs no library
# shellcheck disable=SC2086
exec $compiler -std=c11 -O2 -Wall -Wextra -Wpedantic ${CFLAGS-} "$@" -o "$out" -lm

#!/usr/bin/env bash
# Puts the archive, the header and a file for pkg-config under a folder: bash host/install.sh PREFIX. The archive is made first where it is missing or old.
# DESTDIR=FOLDER puts them under FOLDER/PREFIX, as a package is built; what is said to pkg-config stays PREFIX.
# Ends with 2 where something can't be written, and as host/build.sh does where the archive can't be made.
set -eu
case ${1-} in
'' | -*) set -- ;;
/*) prefix=${1%/} ;;
*) prefix=$PWD/${1%/} ;;
esac
[ $# = 1 ] || { echo "usage: bash host/install.sh PREFIX, where PREFIX is a folder such as /usr/local" >&2; exit 2; }
here=$(CDPATH='' cd -- "$(dirname -- "$0")" && pwd)
sh "$here/build.sh"

number=$(sed -n 's/^#define FOLDHARBOR_VERSION \([0-9]*\)$/\1/p' "$here/foldharbor.h")
to=${DESTDIR-}$prefix
umask 022
mkdir -p -- "$to/lib/pkgconfig" "$to/include" || exit 2
install -T -m 644 -- "$here/../target/archive/libfoldharbor.a" "$to/lib/libfoldharbor.a" || exit 2
install -T -m 644 -- "$here/foldharbor.h" "$to/include/foldharbor.h" || exit 2
cat >"$to/lib/pkgconfig/foldharbor.pc" <<PC || exit 2
prefix=$prefix
includedir=\${prefix}/include
libdir=\${prefix}/lib

Name: Foldharbor
Description: train protection for the cab desks of driver schools
Version: $((number / 10000)).$((number / 100 % 100)).$((number % 100))
Cflags: -I"\${includedir}"
Libs: -L"\${libdir}" -lfoldharbor
PC
printf '%s\n' "$to/lib/libfoldharbor.a" "$to/include/foldharbor.h" "$to/lib/pkgconfig/foldharbor.pc" || exit 2

#!/usr/bin/env bash
# Whether host/install.sh puts all that a host needs under a folder: the small cab desk is built with that alone, as pkg-config says, and drives.
cd "$(dirname -- "$0")/.." || exit 1
. tests/begin.sh
usr=$room/usr
files=(lib/libfoldharbor.a include/foldharbor.h lib/pkgconfig/foldharbor.pc)

bash host/install.sh "$usr" >"$room/told" || miss "nothing is installed"
printf '%s\n' "${files[@]/#/$usr/}" | diff "$room/told" - || miss "the files are not told"
export PKG_CONFIG_PATH=$usr/lib/pkgconfig
version=$(sed -n 's/^#define FOLDHARBOR_VERSION //p' host/foldharbor.h)
IFS=. read -r first second third <<<"$(pkg-config --modversion foldharbor)"
[ $((10000 * first + 100 * second + third)) = "$version" ] || miss "pkg-config tells version $first.$second.$third"

# the source is taken to a folder without header, and the compiler tells which header and archive it takes
cp host/live.c "$room"
said=$(LIBRARY=$(pkg-config --cflags --libs foldharbor) CFLAGS="-H -Wl,--trace" sh host/build.sh "$room/live" "$room/live.c" 2>&1) || miss "$said"
[[ $said == *"$usr/include/foldharbor.h"*"$usr/lib/libfoldharbor.a"* && $said != *"$PWD"* ]] || miss "not built with what is installed: $said"
sh host/run.sh "$room/live" --fast <tests/live.keys | uniq -f 3 | diff - tests/live.txt || miss "what is installed drives otherwise"

# under another root, and over what is there
for _ in 1 2; do
    DESTDIR=$room/elsewhere bash host/install.sh /opt/desk/ >"$room/told" || miss "nothing is installed under DESTDIR"
done
for file in "${files[@]:0:2}"; do
    cmp "$usr/$file" "$room/elsewhere/opt/desk/$file" || miss "$file differs"
done
diff <(sed "s|^prefix=.*|prefix=/opt/desk|" "$usr/${files[2]}") "$room/elsewhere/opt/desk/${files[2]}" || miss "pkg-config is told DESTDIR"
[ ! -e "$room/missed" ]

#!/usr/bin/env bash
# Proves and builds a crate: bash prove.sh NAME makes crates/NAME/out/NAME of a program and crates/NAME/out/libNAME.a of a static library.
# Where nothing under crates/ is newer than what was made, as after `rt ci`, nothing is done and nothing told. Else each crate that is proved is told on
# standard error as it comes, and what failed at the end.
set -u
cd "$(dirname -- "$0")" || exit 2
name=${1-}
if [ -f "crates/$name/src/main.rt" ]; then
    verb=run made=$name
elif [ -n "$name" ] && grep -q "^$name staticlib:" crates.txt; then
    verb=lib made=lib$name.a
else
    echo "usage: bash prove.sh NAME, where NAME is a program or a static library of crates.txt" >&2
    exit 2
fi
made=$PWD/crates/$name/out/$made
# out/ is rt's own, and each crate's folder changes with it
[ ! -f "$made" ] || [ crates.txt -nt "$made" ] || [ -n "$(find crates -mindepth 2 -name out -prune -o -newer "$made" -print -quit)" ] || exit 0

command -v rt >/dev/null || { echo "rt, the command of the Rattle kit, is not on the PATH: put the kit's folder bin there" >&2; exit 2; }
[ -f "$made" ] || echo "$name is proved and built first, which takes up to some minutes" >&2
rm -f -- "$made"
mkdir -p target/log || exit 2
log=$PWD/target/log/$name crate=$name began=$SECONDS
# `rt run` also runs the program, here on nothing, and ends as that does: so what is made, and no status, tells that all went well
(cd "crates/$name" && rt $verb </dev/null 2>&1) | tee "$log" | while IFS= read -r line; do
    case $line in
    "rt: chose --jobs "*) crate=${line##* } began=$SECONDS ;;
    logic=proved*) echo "$crate proved ($((SECONDS - began)) s)" >&2 ;;
    esac
done
[ ! -f "$made" ] || exit 0
grep -E ': error|^rt: |not proved' "$log" | grep -vE '^rt: (chose|[a-z0-9_]+: begins) ' | tail -20 >&2
echo "\`rt $verb\` in crates/$name failed: mend what the lines above name and call this again; target/log/$name has all that was said" >&2
exit 1

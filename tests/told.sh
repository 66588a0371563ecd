#!/usr/bin/env bash
# Whether explain, which is built, tells of every exercise what target/host/told tells by the model, and whether between them the exercises show
# each thing that is told.
cd "$(dirname -- "$0")/.." || exit 1
. tests/begin.sh
bash texts/tables.sh || miss "no tables of texts"

for exercise in crates/show/stdin tests/exercises/*.ex; do
    sh host/run.sh target/host/told texts/slovak.txt texts/english.txt <"$exercise" >"$room/told" || miss "told fails on $exercise"
    sh host/run.sh crates/explain/out/explain target/texts/slovak.table target/texts/english.table <"$exercise" | diff - "$room/told" ||
        miss "explain tells something else of $exercise"
    cat "$room/told" >>"$room/all"
done
for line in "tick .*: NZ"{1..5}" "{held,"let go"} "NZ"{1..5}" held since .*" "after .*, the valve is open" "no intervention" "refused .*" \
    ".*, on: nothing" ".*, on: vigilance, PLUS, MAN, direct brake, remote stop, adhesion loss, cab"; do
    grep -qx "$line" "$room/all" || miss "no exercise shows: $line"
done
[ ! -e "$room/missed" ]

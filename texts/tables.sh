#!/usr/bin/env bash
# Makes the Slovak and the English table of their lines: target/texts/slovak.table and target/texts/english.table.
set -eu
cd "$(dirname -- "$0")/.."
mkdir -p target/texts
for language in slovak english; do
    bash texts/table.sh texts/$language.txt target/texts/$language.table
done

#!/usr/bin/env bash
# Makes the Slovak and the English table of their lines, in target/texts/, and shows them side by side: bash texts/show.sh
set -eu
cd "$(dirname -- "$0")/.."
bash texts/tables.sh
bash program.sh messages target/texts/slovak.table target/texts/english.table

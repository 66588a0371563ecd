#!/usr/bin/env bash
# Prints the answers of an exercise: bash show.sh [FILE]. A FILE of - is standard input; without one it takes the exercise that the paper prints.
# bash show.sh --why [FILE] tells its interventions instead, in Slovak and in English, and why the valve is open at the end.
# Ends with 1 where the file is refused, and with 2 where it can't be read or the answers can't be made or written, which is told on standard error.
set -euo pipefail
usage="usage: bash show.sh [--why] [FILE], where FILE is an exercise, or - for standard input"
tell() {
    echo "show.sh: $1" >&2
    exit 2
}
here=$(dirname -- "$0")
program=(show)
if [ "${1-}" = --why ]; then
    shift
    program=(explain "$here/target/texts/slovak.table" "$here/target/texts/english.table")
fi
[ $# -le 1 ] || tell "$usage"
file=${1-$here/crates/show/stdin}
if [ "$file" != - ]; then
    [ ! -d "$file" ] || tell "$file is a directory: name a file in it"
    [ -e "$file" ] || tell "no such file: $file ($usage)"
    { exec <"$file"; } 2>/dev/null || tell "$file can't be opened: see that you may read it"
fi
[ "${program[0]}" = show ] || bash "$here/texts/tables.sh" || exit 2
bash "$here/program.sh" "${program[@]}" | {
    # a program has no status: a refused file prints that and nothing else, and where nothing is printed the program has told why
    IFS= read -r first || exit 2
    printf '%s\n' "$first" || exit 2
    cat || exit 2
    [[ $first != refused* ]]
}

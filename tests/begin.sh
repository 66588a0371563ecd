# shellcheck shell=bash
# What a check begins with, at the root of the repository: a folder that is gone in the end, and `miss`, which tells what is wrong.
# A check ends with `[ ! -e "$room/missed" ]`; the mark is a file, since what a pipe runs can't set a variable.
room=$(mktemp -d) || exit 1
trap 'rm -rf "$room"' EXIT
miss() {
    echo "$1"
    touch "$room/missed"
}

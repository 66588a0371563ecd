#!/usr/bin/env bash
# Whether host/foldharbor.h is taken as C and as C++ without a word, by each compiler that is there, and whether a C++ host calls the archive.
cd "$(dirname -- "$0")/.." || exit 1
. tests/begin.sh
taken=""

# try COMPILER LANGUAGE STANDARD..: compiles every call
try() {
    local standard words
    command -v "$1" >/dev/null || return
    for standard in "${@:3}"; do
        words=$("$1" -x "$2" -std="$standard" -O2 -Wall -Wextra -pedantic -I host -c host/tests/calls.c -o "$room/calls.o" 2>&1 || echo failed)
        [ -z "$words" ] || miss "$1 -std=$standard: $words"
        taken+="$2 "
    done
}
try gcc c c99 c11 c17
try clang c c99 c11 c17
try g++ c++ c++98 c++11 c++17 c++20
try clang++ c++ c++98 c++11 c++17 c++20
[[ $taken == "c "*"c++ " ]] || miss "no compiler for C or none for C++"

# no C++ library is linked: a host in C++ need not have one
sh host/build.sh "$room/calls" -x c++ -std=c++17 -fno-exceptions -fno-rtti host/tests/calls.c -x none || miss "no C++ host is made"
sh host/run.sh "$room/calls" || miss "the C++ host fails"
[ ! -e "$room/missed" ]

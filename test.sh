#!/usr/bin/env bash
# All tests: the proofs, the must-fail edits and the programs by `rt ci`, the documents, then the checks on the host.
# The last line is 'N passed, M failed'; the status is 0 only if M is 0 and every part ran.
set -u
cd "$(dirname "$0")" || exit 1
passed=0
failed=0

# check NAME COMMAND..: one check, with what it printed if it failed
check() {
    local name=$1
    shift
    if "$@" >"$log" 2>&1; then
        passed=$((passed + 1))
        echo "ok      $name"
    else
        failed=$((failed + 1))
        echo "FAILED  $name"
        tail -20 "$log"
    fi
}

# same WANT COMMAND..: whether what the command prints is the file WANT
same() {
    local want=$1
    shift
    "$@" | cmp - "$want"
}

# with_journal DRIVE: whether the lines and the journal of DRIVE.drive are DRIVE.txt
with_journal() {
    same "$1.txt" sh host/run.sh crates/drive/out/drive journal <"$1.drive"
}

# both_languages COMMAND..: whether what the command prints names NZ4, message 3, in both languages
both_languages() {
    local printed
    printed=$("$@") && [[ $printed == *"$(sed -n 4p texts/slovak.txt)"*"$(sed -n 4p texts/english.txt)"* ]]
}

close() {
    rm -f "$log"
    echo "$passed passed, $failed failed"
    [ "$failed" = 0 ]
    exit
}

# need COMMAND PACKAGES..: what is beyond the kit is installed by its Debian package
need() {
    command -v "$1" >/dev/null && return
    shift
    { apt-get update && apt-get install -y "$@"; } >"$log" 2>&1 && return
    tail -5 "$log"
    failed=$((failed + 1))
    echo "FAILED  installing $*"
}

log=$(mktemp)
command -v rt >/dev/null || { echo "rt, the kit's command, is not on the PATH"; failed=1; close; }
need cmp diffutils
need g++ g++
need pkg-config pkgconf
need script bsdutils
need cc gcc libc6-dev

# rt ci counts for itself: its last line has the numbers
rt ci 2>&1 | tee "$log"
status=${PIPESTATUS[0]}
last=$(tail -1 "$log")
if [[ $last =~ ^([0-9]+)\ passed,\ ([0-9]+)\ failed$ ]]; then
    passed=${BASH_REMATCH[1]}
    failed=$((failed + BASH_REMATCH[2]))
else
    status=1
fi
# a status that the numbers do not tell, such as a file that no listed crate has
[ "$status" = 0 ] || [ "$failed" != 0 ] || failed=1
# a must-fail edit that can't be applied or read fails nothing there, and shows nothing
if [[ $(grep '^rt: ok;' "$log") =~ must-fail\ edits:[^\;]*,\ ([0-9]+)\ bad ]]; then
    failed=$((failed + BASH_REMATCH[1]))
    echo "FAILED  must-fail edits that are bad: ${BASH_REMATCH[1]}"
fi
check "docs name what is there" bash docs/check.sh
check "the archive" sh host/build.sh
check "wrong builds that their own crates prove" bash tests/contracts.sh
check "texts in both languages, table and messages" bash texts/check.sh

for exercise in tests/exercises/*.ex; do
    check "show $exercise" same "${exercise%.ex}.txt" sh host/run.sh crates/show/out/show <"$exercise"
done
for drive in tests/drives/*.drive; do
    case $drive in
    */journal-*) check "drive journal $drive" with_journal "${drive%.drive}" ;;
    *) check "drive $drive" same "${drive%.drive}.txt" sh host/run.sh crates/drive/out/drive <"$drive" ;;
    esac
done

made=target/host
# compile NAME SOURCES..: a program of the tests, by the names of its sources in host/tests/
compile() {
    local name=$1
    shift
    check "cc $name" sh host/build.sh "$made/$name" "${@/#/host/tests/}"
}
compile vectors vectors.c
compile structs structs.c
compile header header.c
compile compare compare.c seen.c generate.c model.c
compile drives drives.c both.c seen.c cases.c some.c fields.c generate.c model.c
compile pieces pieces.c some.c fields.c generate.c model.c
compile texts texts.c
compile told told.c model.c
compile long long.c model.c
compile bench bench.c fields.c generate.c model.c
check "cc live" sh host/build.sh $made/live host/live.c
check "the header's structs are the archive's" sh host/run.sh $made/structs
check "the header as C and as C++" bash tests/header.sh
check "the exercise call on the exercises" sh host/run.sh $made/vectors tests/exercises
check "docs/FORMATS.md, its examples and the header's names" bash docs/formats.sh
check "the exercise calls against the model" sh host/run.sh $made/compare
check "the calls on a desk against the model" sh host/run.sh $made/drives
check "cards and answers among bytes against the model" sh host/run.sh $made/pieces
check "the text call against the model" sh host/run.sh $made/texts
check "what explain tells, against the model" bash tests/told.sh
check "a turn of the benchmark" sh host/run.sh $made/bench 1
check "long drives by the model" sh host/run.sh $made/long $made
for length in 57599 57600 57608; do
    check "drive journal $made/long-$length.drive" with_journal $made/long-$length
done
check "the example host" both_languages bash host/example.sh tests/exercises/04.ex
check "the small cab desk" bash tests/live.sh
check "an installation" bash tests/install.sh
check "scripts and programs at their edges" bash tests/scripts.sh
close

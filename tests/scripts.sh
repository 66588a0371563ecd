#!/usr/bin/env bash
# Whether the scripts and the programs, which are built, do at their edges what they say: words that make no sense, files that can't be read, output that
# can't be written, an input that ends or fails. What the scripts do while something is proved shows in a made-up tree with a made-up `rt`.
cd "$(dirname -- "$0")/.." || exit 1
here=$PWD
. tests/begin.sh

# run COMMAND.., then gives WHAT STATUS OUT ERR: whether it ended with that status and wrote that, and nothing else, to the two outputs
run() {
    "$@" >"$room/out" 2>"$room/err"
    status=$?
}
gives() {
    [ "$status" = "$2" ] || miss "$1: ended with $status and not with $2"
    [ "$(cat "$room/out")" = "$3" ] || miss "$1: printed $(head -c 300 "$room/out")"
    [ "$(cat "$room/err")" = "$4" ] || miss "$1: told $(head -c 300 "$room/err")"
}
program() { sh host/run.sh "crates/$1/out/$1" "${@:2}"; }
full() { "$@" >/dev/full; }

# ---- show.sh, as it is and with --why: where the exercise comes from, and the status
paper=$(cat crates/show/stdout)
refused=$(cat tests/exercises/02.txt)
# README.md has what --why prints of the paper's exercise
why=$(awk -v RS= '/^    card 1\n    tick/' README.md | sed 's/^    //')
why_refused=$(for language in slovak english; do sed -n "$((22 + ${refused#refused } + 1))s/^/  /p" texts/$language.txt; done)
usage="usage: bash show.sh [--why] [FILE], where FILE is an exercise, or - for standard input"
# show_edges PAPER REFUSED PROGRAM WORDS..: show.sh with these words, what it prints of the paper's exercise and of a bad one, and what it runs
show_edges() {
    local paper=$1 refused=$2 program=$3 name
    shift 3
    run bash show.sh "$@"
    gives "show.sh $*" 0 "$paper" ""
    run bash show.sh "$@" - <crates/show/stdin
    gives "show.sh $* -" 0 "$paper" ""
    run bash show.sh "$@" <(cat crates/show/stdin)
    gives "show.sh $* <(..)" 0 "$paper" ""
    run bash show.sh "$@" tests/exercises/02.ex
    gives "show.sh $* on a bad file" 1 "$refused" ""
    run bash show.sh "$@" <(cat tests/exercises/02.ex)
    gives "show.sh $* on a bad pipe" 1 "$refused" ""
    for name in "two words" -dash "--" 'a$b`c' "*"; do
        cp crates/show/stdin "$room/$name"
        run env -C "$room" bash "$here/show.sh" "$@" "$name"
        gives "show.sh $* on a file named $name" 0 "$paper" ""
    done
    run bash show.sh "$@" "$room"
    gives "show.sh $* on a directory" 2 "" "show.sh: $room is a directory: name a file in it"
    run bash show.sh "$@" "$room/none"
    gives "show.sh $* on no file" 2 "" "show.sh: no such file: $room/none ($usage)"
    run bash show.sh "$@" a b
    gives "show.sh $* on two files" 2 "" "show.sh: $usage"
    run bash show.sh "$@" - <"$room"
    gives "show.sh $* - on a directory" 2 "" "$program: standard input: Is a directory"
    run full bash show.sh "$@"
    [ "$status" = 2 ] && grep -q "No space left on device" "$room/err" || miss "show.sh $*: does not tell that its output can't be written"
}
show_edges "$paper" "$refused" show
show_edges "$why" "$refused"$'\n'"$why_refused" explain --why
cp crates/show/stdin "$room/--why"
run env -C "$room" bash "$here/show.sh" --why --why
gives "show.sh --why on a file of that name" 0 "$why" ""
run bash show.sh crates/show/stdin --why
gives "show.sh with --why last" 2 "" "show.sh: $usage"

# ---- programs: an input that fails, an output that fails, words
for name in show drive; do
    run program $name <"$room"
    gives "$name on a directory" 0 "" "$name: standard input: Is a directory"
done
for name in show drive; do
    run full program $name <crates/$name/stdin
    gives "$name" 0 "" "$name: standard output: No space left on device"
done
run full program readings
gives "readings" 0 "" "readings: standard output: No space left on device"
for words in "" "1 0"; do
    # shellcheck disable=SC2086
    run full program messages crates/messages/data/first.table crates/messages/data/second.table $words
    gives "messages $words" 0 "" "messages: standard output: No space left on device"
done
tables=(target/texts/slovak.table target/texts/english.table)
run program explain "${tables[@]}" <"$room"
gives "explain on a directory" 0 "" "explain: standard input: Is a directory"
run full program explain "${tables[@]}" <crates/show/stdin
gives "explain" 0 "" "explain: standard output: No space left on device"
for words in "" a "a b c"; do
    # shellcheck disable=SC2086
    run program explain $words <crates/show/stdin
    gives "explain $words" 0 "" "usage: explain FIRST SECOND <EXERCISE"
done
run program explain "$room/none" "${tables[1]}" <crates/show/stdin
gives "explain on no first table" 0 "" "explain: $room/none: No such file or directory"
run program explain "${tables[0]}" "$room" <crates/show/stdin
gives "explain on no second table" 0 "" "explain: $room: Is a directory"
run program explain /dev/null "${tables[1]}" <crates/show/stdin
gives "explain on a bad table" 0 "${why/$(sed -n 3p <<<"$why")/  refused 15 (refused 15, refused 15)}" ""
for words in x Journal journals "journal journal" "journal x"; do
    # shellcheck disable=SC2086
    run program drive $words <crates/drive/stdin
    gives "drive $words" 0 "" "usage: drive [journal] <SCRIPT"
done
run program drive "" <crates/drive/stdin
gives "drive with an empty word" 0 "" "usage: drive [journal] <SCRIPT"
[ "$(program show <tests/exercises/02-10.ex | head -n 1)" = "card 1" ] || miss "show into a pipe that closes"

# drive takes no byte beyond a call: behind the unknown one, which ends this script, a tick of 14 bytes is left
left=$({ program drive >/dev/null; wc -c; } <tests/drives/journal-survivors.drive)
[ "$left" = 14 ] || miss "drive reads on behind the call that it answers: $left bytes are left"
# and it answers the header and a call while the input stays open; the time is that after which nothing comes any more
mkfifo "$room/script"
program drive <"$room/script" >"$room/lines" &
exec 3>"$room/script"
head -c 22 crates/drive/stdin >&3
for count in 1 2; do
    for _ in $(seq 600); do
        [ "$(wc -l <"$room/lines")" -lt $count ] || break
        sleep 0.1
    done
    [ "$(wc -l <"$room/lines")" = $count ] || miss "drive: $(wc -l <"$room/lines") lines and not $count while its input is open"
    printf '\3' >&3
done
exec 3>&-
wait

# ---- program.sh and run.sh
programs="drive explain messages readings show table"
for words in "" none numbers; do
    # shellcheck disable=SC2086
    run bash program.sh $words
    gives "program.sh $words" 2 "" "usage: bash program.sh NAME ARGUMENTS.., where NAME is one of: $programs"
done
for words in "" none numbers; do
    # shellcheck disable=SC2086
    run bash prove.sh $words
    gives "prove.sh $words" 2 "" "usage: bash prove.sh NAME, where NAME is a program or a static library of crates.txt"
done
run sh host/run.sh "$room/none"
[ "$status" = 2 ] && grep -q "there is no $room/none: " "$room/err" || miss "run.sh does not tell that a program is missing"

# ---- the example host
example=target/host/example
run bash host/example.sh a b
gives "example.sh on two words" 2 "" "usage: bash host/example.sh [EXERCISE [FIRST SECOND]], where FIRST and SECOND are tables of texts"
run sh host/run.sh $example tests/exercises/04.ex
gives "example on one word" 2 "" "$(printf 'usage: example EXERCISE FIRST SECOND\nFIRST and SECOND are tables of texts: texts/table.sh makes one')"
run sh host/run.sh $example "$room" "${tables[@]}"
gives "example on a directory" 2 "" "$room: Is a directory"
run sh host/run.sh $example "$room/none" "${tables[@]}"
gives "example on no file" 2 "" "$room/none: No such file or directory"
run full sh host/run.sh $example tests/exercises/04.ex "${tables[@]}"
gives "example" 2 "" "standard output: No space left on device"
run sh host/run.sh $example tests/exercises/02.ex "${tables[@]}"
[ "$status" = 1 ] && [ "$(head -n 1 "$room/out")" = "$refused" ] || miss "example on a bad file"

# ---- the small cab desk
live=target/host/live
heading=$(head -n 1 tests/live.txt)
for words in x --slow "--fast --fast" "--help x"; do
    # shellcheck disable=SC2086
    run sh host/run.sh $live $words </dev/null
    gives "live $words" 2 "" "usage: live [--fast]"
    # shellcheck disable=SC2086
    run bash host/live.sh $words </dev/null
    gives "live.sh $words" 2 "" "usage: bash host/live.sh [--fast]"
done
run sh host/run.sh $live "" </dev/null
gives "live with an empty word" 2 "" "usage: live [--fast]"
run sh host/run.sh $live --help
[[ $status = 0 && $(head -n 1 "$room/out") = "usage: live [--fast]" && ! -s $room/err ]] || miss "live --help"
run sh host/run.sh $live --fast <"$room"
gives "live on a directory" 2 "$heading" "standard input: Is a directory"
for words in --fast --help; do
    run full sh host/run.sh $live $words </dev/null
    gives "live $words" 2 "" "standard output: No space left on device"
done
[ "$(sh host/run.sh $live --fast </dev/null | head -n 1)" = "$heading" ] || miss "live into a pipe that closes"

# ---- install.sh
usage="usage: bash host/install.sh PREFIX, where PREFIX is a folder such as /usr/local"
for words in "" "a b" --help; do
    # shellcheck disable=SC2086
    run bash host/install.sh $words
    gives "install.sh $words" 2 "" "$usage"
done
run bash host/install.sh ""
gives "install.sh with an empty word" 2 "" "$usage"
run bash host/install.sh /dev/null
[[ $status = 2 && ! -s $room/out ]] && grep -q "Not a directory" "$room/err" || miss "install.sh does not tell that a folder can't be made"
mkdir -p "$room/usr/include/foldharbor.h"
run bash host/install.sh "$room/usr"
[[ $status = 2 && ! -s $room/out && -s $room/err ]] || miss "install.sh does not tell that the header can't be written"

# ---- while something is proved: a tree with a space in its name, whose `rt` writes down its words and makes what it is asked for
tree="$room/a tree"
objects=$(sed -n 's/^objects="\([^"]*\)".*/\1/p' host/build.sh)
mkdir -p "$tree/bin" "$tree/host"
cp prove.sh program.sh show.sh crates.txt "$tree"
cp host/*.sh "$tree/host"
cp -r texts "$tree"
for name in show explain table $objects; do
    mkdir -p "$tree/crates/$name/src"
done
touch "$tree"/crates/{show,explain,table}/src/main.rt
cp crates/show/stdin "$tree/crates/show"
cat >"$tree/bin/rt" <<'RT'
#!/bin/sh
[ "$1" != doc ] || exec "$REAL_RT" doc
name=$(basename "$PWD")
echo "$1 $name" >>../../called
cat # standard input is the program's: rt must get none of it
echo "rt: file: begins with what a check kept elsewhere"
echo "rt: chose --jobs 2 for file"
[ -z "${FAIL-}" ] || { echo "src/main.rt:1:1: error: made up"; exit 1; }
echo "logic=proved functions=2"
mkdir -p out
[ "$1" != run ] || cp "$HERE/crates/$name/out/$name" out
[ "$1" != lib ] || echo "!<arch>" >"out/lib$name.a" # an archive of nothing
RT
cat >"$tree/bin/compiler" <<'CC'
#!/bin/sh
echo "$*" >compiled
CC
chmod +x "$tree"/bin/*
# its proofs take no time, and would be told to take a second where one begins meanwhile
made_up() {
    env -C "$tree" PATH="$tree/bin:$PATH" HERE="$here" REAL_RT="$(command -v rt)" "$@" 2>"$room/told"
    local status=$?
    sed 's/([0-9]* s)$/(0 s)/' "$room/told" >&2
    return $status
}
first="is proved and built first, which takes up to some minutes"
# fails PROGRAM WORDS..: whether show.sh with these words ends where the program can't be proved
fails() {
    FAIL=1 run made_up bash show.sh "${@:2}"
    [ "$status" = 2 ] && [ ! -s "$room/out" ] && grep -q "error: made up" "$room/err" && grep -q "^.rt run. in crates/$1 failed: " "$room/err" ||
        miss "show.sh ${*:2} where the proof fails: $status, $(cat "$room/out" "$room/err")"
}
fails show
fails table --why
run made_up bash show.sh - <crates/show/stdin
gives "show.sh, first run" 0 "$paper" "$(printf '%s\n' "show $first" "file proved (0 s)")"
run made_up bash show.sh --why - <crates/show/stdin
gives "show.sh --why, first run" 0 "$why" "$(printf '%s\n' "table $first" "file proved (0 s)" "explain $first" "file proved (0 s)")"
rm "$tree/called"
run made_up bash show.sh - <crates/show/stdin
gives "show.sh, nothing changed" 0 "$paper" ""
[ ! -e "$tree/called" ] || miss "show.sh proves what has not changed"
for changed in crates.txt crates/table/src crates/table/src/main.rt; do
    touch "$tree/$changed"
    run made_up bash show.sh - <crates/show/stdin
    gives "show.sh, $changed changed" 0 "$paper" "file proved (0 s)"
done
touch "$tree/crates.txt"
fails show
rm "$tree/called"

# the archive is made where it is missing and where a source is newer, and not else
# shellcheck disable=SC2086
made=$(printf 'lib %s\n' $objects)
run made_up sh host/build.sh
[ "$(cat "$tree/called")" = "$made" ] || miss "build.sh does not make an archive that is missing"
run made_up sh host/build.sh
gives "build.sh with an archive" 0 "" ""
[ "$(cat "$tree/called")" = "$made" ] || miss "build.sh makes an archive that is there"
touch "$tree/crates/show/src/main.rt"
rm "$tree/called"
CC="compiler -first" CFLAGS="-O0 -g" run made_up sh host/build.sh "a folder/a program" "-option" "a source.c"
[ "$status" = 0 ] && [ "$(cat "$tree/called")" = "$made" ] || miss "build.sh does not make an archive that is older than a source"
compiled=$(cat "$tree/compiled")
[[ $compiled == *"-first "*"-O2 "*"-O0 -g "*"-option a source.c "*"libfoldharbor.a -o a folder/a program"* ]] || miss "build.sh calls: $compiled"
CC=none run made_up sh host/build.sh a b
gives "build.sh with no compiler" 2 "" "no compiler none: install it, or name yours by CC=.."
touch "$tree/crates.txt"
FAIL=1 run made_up sh host/build.sh a b
[ "$status" = 1 ] && [ ! -e "$tree/target/archive" ] && grep -q "error: made up" "$room/err" || miss "build.sh goes on where the proof fails"
# what another header and archive are named for needs none of this tree
rm "$tree/called"
CC=compiler LIBRARY="-I there -L there -lfoldharbor" run made_up sh host/build.sh a b.c
gives "build.sh with a LIBRARY" 0 "" ""
[[ $(cat "$tree/compiled") == *" b.c -I there -L there -lfoldharbor -o a"* && $(cat "$tree/compiled") != *"$tree"* && ! -e $tree/called ]] ||
    miss "build.sh with a LIBRARY calls: $(cat "$tree/compiled")"
# an installation makes the archive first, and installs nothing where it can't
cp host/foldharbor.h "$tree/host"
FAIL=1 run made_up bash host/install.sh "a place"
[ "$status" = 1 ] && [ ! -e "$tree/a place" ] || miss "install.sh goes on where the proof fails"
run made_up bash host/install.sh "a place/"
[[ $status = 0 && -f "$tree/a place/lib/libfoldharbor.a" && $(head -n 1 "$tree/a place/lib/pkgconfig/foldharbor.pc") = "prefix=$tree/a place" ]] ||
    miss "install.sh does not make the archive first"
run sh host/build.sh a
gives "build.sh on one word" 2 "" "usage: sh host/build.sh [OUT SOURCES..]"
mkdir "$room/nothing"
for word in bash cat dirname find grep; do
    ln -s "$(command -v $word)" "$room/nothing"
done
touch "$tree/crates.txt"
PATH=$room/nothing run bash "$tree/prove.sh" show
gives "prove.sh with no kit" 2 "" "rt, the command of the Rattle kit, is not on the PATH: put the kit's folder bin there"

# ---- every script parses
for script in ./*.sh host/*.sh texts/*.sh tests/*.sh docs/*.sh .ci/run; do
    bash -n "$script" || miss "$script does not parse"
done
[ ! -e "$room/missed" ]

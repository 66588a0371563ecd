#!/usr/bin/env bash
# Whether the texts fit together, and whether the programs `table` and `messages`, which are built, do what they say with them and with bad ones.
cd "$(dirname "$0")/.." || exit 1
. tests/begin.sh
program() { sh host/run.sh "crates/$1/out/$1" "${@:2}"; }

# ---- the files: line for line the same messages, listed in README.md from 0 on, composed, nothing but text
lines=$(wc -l <texts/slovak.txt)
[ "$lines" = "$(wc -l <texts/english.txt)" ] || miss "slovak.txt and english.txt have different numbers of lines"
[ "$lines" -le 64 ] || miss "more than 64 lines"
listed=$(sed -n 's/^| \([0-9]*\) | .*/\1/p' texts/README.md)
[ "$listed" = "$(seq 0 $((lines - 1)))" ] || miss "README.md does not list the messages 0 to $((lines - 1))"
for file in texts/slovak.txt texts/english.txt; do
    # U+0300 to U+036F, the marks that a letter is composed with
    LC_ALL=C grep -n $'\xcc[\x80-\xbf]\|\xcd[\x80-\xaf]' "$file" && miss "$file: a letter is not composed"
    LC_ALL=C grep -na '[[:cntrl:]]\|^$\| $' "$file" && miss "$file: an empty line, a space at a line's end or a control character"
    LC_ALL=C grep -n $'\xef\xbb\xbf' "$file" && miss "$file: a byte order mark"
    [ -z "$(tail -c 1 "$file")" ] || miss "$file: no line end after the last line"
    # a character has one byte that is not 80 to BF
    LC_ALL=C sed $'s/[\x80-\xbf]//g' "$file" | LC_ALL=C grep -n '.\{79\}' && miss "$file: a line of more than 78 characters"
done

# ---- the numbers: what README.md says a message is about gives its number by the header's constants, and its line begins with its name
constant() { sed -n "s|^    FOLDHARBOR_TEXT$1 = \([0-9]*\),* */\*.*|\1|p" host/foldharbor.h; }
[ "$(constant S)" = "$lines" ] || miss "FOLDHARBOR_TEXTS is not $lines"
# begins NUMBER ENGLISH SLOVAK: with what the two lines of a message begin
begins() {
    [[ $(sed -n "$(($1 + 1))p" texts/english.txt) == "$2"* ]] || miss "message $1 of english.txt does not begin with $2"
    [[ $(sed -n "$(($1 + 1))p" texts/slovak.txt) == "$3"* ]] || miss "message $1 of slovak.txt does not begin with $3"
}
# what README.md calls it, and what the header does
groups=("kind:_ONE_TIME_PROMPT" "cause bit:_CAUSE" "mark bit:_MARK" "code:_CODE" "mode:_MODE" "refusal:_REFUSAL")
while IFS='|' read -r _ number meaning from _; do
    number=${number// /}
    meaning=${meaning# }
    meaning=${meaning% }
    k=
    for group in "${groups[@]}"; do
        [[ $from =~ ${group%:*}\ ([0-9]+) ]] || continue
        k=${BASH_REMATCH[1]}
        first=$(constant "${group#*:}")
        [ -n "$first" ] && [ "$number" = $((first + k)) ] || miss "message $number is not FOLDHARBOR_TEXT${group#*:} + $k"
        break
    done
    [ -n "$k" ] || miss "README.md does not say of what in an answer message $number is"
    case $from in
        *refusal*) begins "$number" "Refusal $k:" "Odmietnutie $k:" ;;
        *cause*) name=${from%%,*} && begins "$number" "${name# }:" "${name# }:" ;;
        *mode*) begins "$number" "${meaning%%,*}:" "${meaning%%,*}:" ;;
        *code*) begins "$number" "Railway signal: $meaning" "Návestný znak: " ;;
        *"bit 5"*) begins "$number" "${meaning%%,*}:" "${meaning%%,*}:" ;;
    esac
done < <(grep '^| [0-9]* |' texts/README.md)

# ---- every message read back from its table, to the byte
for language in slovak english; do
    program table <texts/$language.txt >"$room/$language" || miss "table fails on $language.txt"
done
for number in $(seq 0 $((lines - 1))); do
    for language in 1:slovak 2:english; do
        program messages "$room/slovak" "$room/english" "${language%:*}" "$number" >"$room/one"
        sed -n "$((number + 1))p" "texts/${language#*:}.txt" | cmp -s - "$room/one" || miss "message $number of ${language#*:} is not its line"
    done
done

program messages "$room/slovak" "$room/english" >"$room/rows"
[ "$(wc -l <"$room/rows")" = "$lines" ] || miss "messages does not print a row for each message"
pasted=$(sed -n 's/^    \([ 0-9][0-9]  .*\)/\1/p' README.md)
[ -n "$pasted" ] || miss "no row of messages in the root's README.md"
while IFS= read -r row; do
    grep -qxF -e "$row" "$room/rows" || miss "the root's README.md has a row that messages does not print: $row"
done <<<"$pasted"

example=$(sed -n 's/^    \(02 00 .*\)/\1/p' texts/README.md | tr -d ' ')
[ "$(printf 'á\nok\n' | program table | od -An -v -tx1 | tr -d ' \n')" = "$example" ] || miss "the example in README.md is not what table makes"

# ---- refusals, on standard output, and what is told of files and words, on standard error
# prints WANT WORDS.. and tells WANT WORDS..: whether messages writes just that line there, and nothing to the other
wrote() {
    local want=$1 there=$2 other=$3
    shift 3
    program messages "$@" >"$room/out" 2>"$room/err"
    printf '%s\n' "$want" | cmp -s - "$room/$there" && [ ! -s "$room/$other" ] || miss "messages $*: not '$want'"
}
prints() { wrote "$1" out err "${@:2}"; }
tells() { wrote "$1" err out "${@:2}"; }
head -c 100 "$room/slovak" >"$room/cut"
for language in 0 3 4294967295; do prints "refused 17" "$room/cut" "$room/cut" $language 0; done
prints "refused 15" "$room/cut" "$room/english" 1 4294967295
prints "refused 15" "$room/slovak" "$room/cut" 2 0
prints "refused 15" "$room/cut" "$room/english"
prints "refused 15" "$room/slovak" "$room/cut"
for number in "$lines" 4294967295; do prints "refused 16" "$room/slovak" "$room/cut" 1 "$number"; done
usage="usage: messages FIRST SECOND [LANGUAGE NUMBER]"
tells "$usage"
tells "$usage" "$room/slovak" "$room/english" 1
for number in -1 one 4294967296 1x ''; do tells "$usage" "$room/slovak" "$room/english" 1 "$number"; done
tells "messages: $room/none: No such file or directory" "$room/none" "$room/english"
tells "messages: $room: Is a directory" "$room/slovak" "$room"
tells "messages: : No such file or directory" '' "$room/english"
head -c 65536 /dev/zero >"$room/long"
tells "messages: $room/long: longer than a table can be" "$room/slovak" "$room/long"

# ---- lines that make no table, on standard input: faulty WHY whether it tells just that and writes nothing
faulty() {
    program table >"$room/out" 2>"$room/err"
    [ ! -s "$room/out" ] || miss "a table in spite of: $1"
    printf 'table: %s\n' "$1" | cmp -s - "$room/err" || miss "not told: $1"
}
as() { head -c "$1" /dev/zero | tr '\0' a; }
faulty "line 1: there is none, and a table has at least one message" </dev/null
seq 65 | faulty "line 65: one too many, a table has at most 64 messages"
printf 'good\nb\xc3\n' | faulty "line 2: it is not UTF-8"
printf 'good\n\nbad \xed\xa0\x80' | faulty "line 3: it is not UTF-8"
as 65530 | faulty "line 1: the table would be longer than 65535 bytes"
{ as 40000; echo; as 25528; echo; } | faulty "line 2: the table would be longer than 65535 bytes"
as 70000 | faulty "line 1: the table would be longer than 65535 bytes"
faulty "standard input: Is a directory" <"$room"
[ "$(as 65529 | program table | wc -c)" = 65535 ] || miss "a table of 65535 bytes is not made"
[ "$(seq 64 | program table | wc -c)" = $((2 + 2 * 65 + 9 + 2 * 55)) ] || miss "a table of 64 messages is not made"
[ "$(program table <texts/slovak.txt 2>&1 >/dev/full)" = "table: standard output: No space left on device" ] || miss "not told: a table that can't be written"

# ---- table.sh: bad lines, lines that are not there, a table that can't be written
printf 'b\xff' >"$room/bad"
echo kept >"$room/kept"
for input in bad none; do
    bash texts/table.sh "$room/$input" "$room/kept" 2>"$room/err" && miss "table.sh on $input lines does not end with 1"
    [ -s "$room/err" ] || miss "table.sh on $input lines tells nothing"
    [ "$(cat "$room/kept")" = kept ] || miss "table.sh writes where there are $input lines"
done
bash texts/table.sh texts/slovak.txt /dev/full 2>"$room/err" && miss "table.sh does not end with 1 where TABLE can't be written"
[ -s "$room/err" ] || miss "table.sh does not tell that TABLE can't be written"
bash texts/table.sh texts/slovak.txt "$room/kept" && cmp -s "$room/slovak" "$room/kept" || miss "table.sh does not make the table"
bash texts/show.sh | cmp -s - "$room/rows" || miss "show.sh does not show the rows"
[ ! -e "$room/missed" ]

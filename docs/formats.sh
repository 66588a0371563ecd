#!/usr/bin/env bash
# Whether FORMATS.md and tests/README.md are true. Programs and target/host/header are built before; NAMEs are files.
#   ```hex NAME                     the file's bytes (behind # a comment)
#   ```text NAME TABLE              the file's lines, of which the program table makes TABLE
#   ```sh NAME FILE                 commands that write FILE, which has to be NAME
#   ```prints COMMAND               what a program prints, with its words and files
#   <!-- bytes NAME FROM -->        a table: places counted from FROM, in the last column the bytes there and their number
#   <!-- changed NAME -->           a table: a place, a new byte, and what show prints of NAME with it
#   <!-- floats -->                 a table: the bytes of a float and its number, and what drive makes of it as speed and pressure
# In any table a row with a name of foldharbor.h begins with its number, or with its bit; no name is missing.
export LC_ALL=C
cd "$(dirname "$0")/.." || exit 1
root=$PWD
room=$(mktemp -d)
trap 'rm -rf "$room"' EXIT
declare -A seen constants listed
missed=0
fail() {
    echo "$1"
    missed=1
}
miss() { fail "$page:$number: $1"; }

program() {
    local name=$1
    shift
    case $name in
        header) sh "$root/host/run.sh" "$root/target/host/header" "$@" ;;
        *) sh "$root/host/run.sh" "$root/crates/$name/out/$name" "$@" ;;
    esac
}
# write HEX..: these bytes
write() {
    local byte
    for byte; do printf '%b' "\\x$byte"; done
}
# read_bytes FILE PLACE COUNT: in hex, with single spaces
read_bytes() {
    local bytes
    read -ra bytes < <(od -An -v -tx1 -j "$2" -N "$3" -w65536 "$1")
    echo "${bytes[*]}"
}
is_hex() { [[ "$*" =~ ^[0-9a-f]{2}(\ [0-9a-f]{2})*$ ]]; }

# a block is over: its first words and its lines are in $fence and in $room/.block
end_block() {
    local kind name rest bytes
    read -r kind name rest <<<"$fence"
    seen[$kind]=1
    case $kind in
        hex)
            read -ra bytes < <(sed 's/#.*//' .block | tr '\n' ' ')
            is_hex "${bytes[@]}" || miss "not bytes in hex"
            write "${bytes[@]}" >"$name"
            ;;
        text)
            cp .block "$name"
            program table <"$name" >"$name.made"
            wanted+=("$rest:$name.made")
            ;;
        sh)
            sh .block || miss "the commands fail"
            wanted+=("$name:$rest")
            ;;
        prints)
            eval "program $name $rest" </dev/null >.out
            diff .block .out || miss "$name $rest prints something else"
            ;;
        *) miss "a block of no known kind: $fence" ;;
    esac
}

# check_bytes NAME FROM FIRST-CELL LAST-CELL
check_bytes() {
    local first last hex count bytes value=0 i
    [[ $3 =~ ^([0-9]+)((,| to)\ ([0-9]+))?$ ]] || { miss "no places: $3"; return; }
    first=${BASH_REMATCH[1]}
    last=${BASH_REMATCH[4]:-$first}
    [[ $4 =~ ^\`([0-9a-f ]+)\`(\ =\ ([0-9a-fx+*\ ]+))?(,.*)?$ ]] || { miss "no bytes: $4"; return; }
    hex=${BASH_REMATCH[1]}
    number_said=${BASH_REMATCH[3]}
    count=$((last - first + 1))
    [ "$first" = "$next" ] || miss "places from $first and not from $next on"
    next=$((last + 1))
    [ "$(read_bytes "$1" $(($2 + first)) $count)" = "$hex" ] || miss "$1 has other bytes at $(($2 + first))"
    [ -n "$number_said" ] || return
    read -ra bytes <<<"$hex"
    for ((i = count - 1; i >= 0; i--)); do value=$((256 * value + 0x${bytes[i]})); done
    [ "$value" = $((number_said)) ] || miss "$hex is $value and not $number_said"
}

# check_changed NAME PLACE BYTE LINE
check_changed() {
    { head -c "$2" "$1" && write "$3" && tail -c +$(($2 + 2)) "$1"; } >.changed
    [ "$(program show <.changed)" = "$4" ] || miss "$1 with $3 at $2 does not print $4"
}

# taken SPEED PRESSURE: the record that drive makes of a tick with these floats, or its refusal
taken() {
    local out
    mapfile -t out < <({ head -c 22 ride && write 01 $1 $2 04 02 01 40 01; } | program drive journal)
    [[ ${out[1]} == 0\ * ]] && echo "${out[2]}" || echo "refused ${out[1]%% *}"
}
# check_float HEX NUMBER SPEED PRESSURE
check_float() {
    local zero="00 00 00 00" printed record
    printed=$(write $1 | od -An -v -tf4)
    [ "${printed// /}" = "$2" ] || miss "$1 is ${printed// /}"
    read -ra record <<<"$(taken "$1" "$zero")"
    is_hex "${record[@]}" && record=($((0x${record[1]}${record[0]})))
    [ "${record[*]}" = "$3" ] || miss "$1 as a speed: ${record[*]}"
    read -ra record <<<"$(taken "$zero" "$1")"
    is_hex "${record[@]}" && record=(band $((0x${record[6]})))
    [ "${record[*]}" = "$4" ] || miss "$1 as a pressure: ${record[*]}"
}

# the names of the header: its comments and line ends taken away, each with the number that it is, and the bit where it is one
while IFS='=' read -r name value; do
    name=${name// /}
    [[ $value =~ ^\ 1\ \<\<\ ([0-9]+) ]] && constants[$name]=${BASH_REMATCH[1]} || constants[$name]=$((value))
    declare "$name=$((value))"
done < <(tr '\n' ' ' <host/foldharbor.h | sed 's|/\*[^*]*\*\+\([^/*][^*]*\*\+\)*/||g' | grep -o 'FOLDHARBOR_[A-Z0-9_]* = [^,}]*')
[ ${#constants[@]} -gt 0 ] || { echo "no names in the header" && exit 1; }

# a row of a table
check_row() {
    local cells cell last
    IFS='|' read -ra cells <<<"${1#|}"
    for ((cell = 0; cell < ${#cells[@]}; cell++)); do
        cells[cell]=${cells[cell]# }
        cells[cell]=${cells[cell]% }
    done
    last=${cells[-1]}
    [[ ${cells[0]} =~ ^[0-9] ]] || return
    if [[ $1 =~ (FOLDHARBOR_[A-Z0-9_]+) ]]; then
        local name=${BASH_REMATCH[1]} value=${constants[${BASH_REMATCH[1]}]:-none}
        listed[$name]=1
        [[ ${cells[0]} =~ ^([0-9]+) && ${BASH_REMATCH[1]} = "$value" ]] || miss "$name is $value in the header"
        if [[ ${cells[1]} =~ ^[0-9]+$ ]]; then
            [ "${cells[1]}" = $((1 << value)) ] || miss "bit $value is not worth ${cells[1]}"
        fi
    fi
    case $table in
        bytes*) check_bytes ${table#bytes } "${cells[0]}" "$last" ;;
        changed*) check_changed ${table#changed } "${cells[0]}" "${cells[1]}" "${cells[2]}" ;;
        floats) check_float "${cells[@]}" ;;
    esac
}

cd "$room" || exit 1
ln -s "$root/tests" tests
wanted=("tour:tour.made")
for page in docs/FORMATS.md tests/README.md; do
    # first the blocks, then the tables, which may stand before their example
    number=0 fence=''
    while IFS= read -r line; do
        number=$((number + 1))
        if [[ $line != '```'* ]]; then
            [ -z "$fence" ] || printf '%s\n' "$line" >>.block
        elif [ -n "$fence" ]; then
            end_block
            fence=''
        else
            fence=${line#'```'}
            : >.block
        fi
    done <"$root/$page"
    number=0 table='' rows=0
    while IFS= read -r line; do
        number=$((number + 1))
        if [[ $line =~ ^'<!-- '((bytes|changed|floats).*)' -->'$ ]]; then
            table=${BASH_REMATCH[1]}
            next=0
            seen[${table%% *}]=1
        elif [[ $line == '|'* ]]; then
            check_row "$line"
            rows=1
        elif [ $rows = 1 ]; then
            table=''
            rows=0
        fi
    done <"$root/$page"
done
for pair in "${wanted[@]}"; do
    cmp "${pair%%:*}" "${pair#*:}" || fail "${pair#*:} is not ${pair%%:*} of the page"
done
for kind in hex text sh prints bytes changed floats; do [ -n "${seen[$kind]}" ] || fail "no $kind"; done
for name in "${!constants[@]}"; do [ -n "${listed[$name]}" ] || fail "$name of the header is missing"; done
exit $missed

#!/usr/bin/env bash
# Whether the small cab desk, which is built, drives as it should: live.txt has the lines of live.keys at which more changes than time and speeds.
# Ticks that are driven again after a step back or a restart have to give the same lines again.
cd "$(dirname -- "$0")/.." || exit 1
. tests/begin.sh
set -o pipefail
live() { sh host/run.sh target/host/live "$@"; }

live --fast <tests/live.keys | uniq -f 3 | diff - tests/live.txt || miss "live.keys gives other lines"
# before the step back it stands on a curve for 17 ticks
live --fast <tests/live.keys | sed -n '1,/^back/p' | awk '$2 == "0.0" && / curve/ {print $3}' | sort | uniq -c | tr -s ' ' | diff - <(echo " 17 120.1") ||
    miss "a train that stands does not keep its curve"

# a minute with a press every 5 s, as it is, and with something that is struck or refused in between; tick 151 and the first have no key
keys=$(printf '.................................................v%.0s' {1..12} | tr v ' ')
live --fast <<<"$keys" >"$room/straight" || miss "a minute does not end with 0"
[ "$(wc -l <"$room/straight")" = 601 ] || miss "a minute has $(wc -l <"$room/straight") lines"
# again WHAT KEYS EVENT LINES: whether the event is told, and the last lines are those of the minute
again() {
    live --fast <<<"$2" >"$room/other" || miss "$1 does not end with 0"
    grep -qx "$3" "$room/other" || miss "$1 is not told"
    tail -n "$4" "$room/other" | cmp - <(tail -n "$4" "$room/straight") || miss "$1 changes later lines"
}
again "a step back" "${keys:0:450}b${keys:151}" "back by 30.0 s" 450
grep -A1 back "$room/other" | tail -n 1 | cmp - <(sed -n 151p "$room/straight") || miss "a step back shows another tick"
again "a step back to the start" "${keys:0:299}b${keys:1}" "back by 29.9 s" 600
again "a restart" "${keys:0:200}r${keys:1}" restart 600
again "a refused reading" "xx${keys:0:99}x${keys:99}" "tick refused: 1" 500
[ "$(grep -c refused "$room/other")" = 3 ] || miss "not each refused reading is told"

# readings that fail for a second at full speed: the host opens the valve, and the train has lost 1.2 km/h a tick when one is accepted again
live --fast <<<"${keys:0:220}xxxxxxxxxxxx${keys:220}" >"$room/other" || miss "a failing reading ends the drive"
grep -A3 "no reading for a second" "$room/other" | sed -n '4s/^\( *[0-9.]*  *[0-9.]*\) .*/\1/p' | diff - <(echo " 22.1  116.4") ||
    miss "the host does not open the valve"

# ten ticks a second
start=${EPOCHREALTIME/[^0-9]/}
[ "$(live <<<"............q" | wc -l)" = 13 ] || miss "q does not end the drive"
taken=$((${EPOCHREALTIME/[^0-9]/} - start))
[[ $taken -ge 1200000 && $taken -le 6000000 ]] || miss "12 ticks take $taken microseconds"

# in a terminal: one line, which begins anew at each tick; and the terminal is as it was, after a signal too
cat >"$room/commands" <<'END'
stty -a >"$1/before"
sh host/run.sh target/host/live --fast
stty -a >"$1/after"
(sleep 1; stty -a </dev/tty >"$1/during") &
timeout --foreground --preserve-status 2 sh host/run.sh target/host/live >/dev/null
echo "ended with $?"
stty -a >"$1/later"
END
script -qec "sh '$room/commands' '$room'" /dev/null </dev/null >"$room/shown"
grep -q -- "-icanon" "$room/during" || miss "it does not take the terminal"
[[ $(tr -cd '\r' <"$room/shown" | wc -c) -ge 600 && $(wc -l <"$room/shown") -le 6 ]] || miss "in a terminal it is not one line"
[[ $(tail -n 1 "$room/shown") == "ended with 143"* ]] || miss "a signal does not end it"
for later in after later; do
    cmp "$room/before" "$room/$later" || miss "the terminal is not as it was"
done
# keys in a terminal: vigilance, PLUS and q at once
script -qec "sh host/run.sh target/host/live" /dev/null < <(sleep 1; printf ' +q'; sleep 1) >"$room/shown" || miss "q in a terminal does not end it with 0"
[ "$(tr -cd '\r' <"$room/shown" | wc -c)" -le 100 ] || miss "q in a terminal does not end it at once"
[ ! -e "$room/missed" ]

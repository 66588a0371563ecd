#!/usr/bin/env bash
# Wrong builds that their own crates prove, since definition, contract and code were changed alike: crate `demands` has to refuse each of them.
# They stand together in copies of the crates, each caught by a law of its own; crates below them are taken over as they were proved.
# The copies are outside of the repository, where `rt ci` would want each crate to be listed. What was said of each is in target/log/.
cd "$(dirname "$0")/.." || exit 1
. tests/begin.sh
mkdir -p target/log || exit 1

# copy NAME: a copy of the crates, to be changed
copy() {
    tree=$room/$1
    log=$PWD/target/log/contracts-$1
    mkdir "$tree" && tar -c --exclude='crates/*/out' crates crates.txt | tar -x -C "$tree" || exit 1
}

# change FILE SED..: the file has to change
change() {
    sed -i.was -e "${@:2}" "$tree/crates/$1" && ! cmp -s "$tree/crates/$1" "$tree/crates/$1.was" || { echo "nothing to change in $1" && exit 1; }
    rm "$tree/crates/$1.was"
}

# refused LAWS: each of the laws is broken, over crates that are proved: `demands` is checked over no others
refused() {
    local law
    (cd "$tree/crates/demands" && rt check) >"$log" 2>&1
    grep '^rt: the library .* did not build' "$log" && miss "a wrong build that its own crate refuses"
    for law in $1; do
        grep -E "^(\./)?proofs/${law%:*}\.antt:.* error: \`${law#*:}\`" "$log" | grep -qv 'was not admitted' || miss "not refused: ${law#*:}"
    done
    rm -r "$tree"
}

# ---- exported calls that are not the functions': one for each
copy exports
# an opening that begins the opened desk anew, and so refuses as a restart does
change foldharbor/src/lib.rt '/^pub fn foldharbor_open(/,/^}/{
    s/≡ open_outcome card/≡ restart_outcome (open_outcome card).desk/
    s/Desk::open(card)/let opened = Desk::open(card).desk;\n    opened.restart()/
}'
# a tick that leaves the answer of the tick before
change foldharbor/src/lib.rt '/^ghost use Rattle\.desk\.specs\.Calls/s/{/{back_outcome, /' -e '/^pub fn foldharbor_tick(/,/^}/{
    s/≡ \(tick_outcome desk sample \(journal\.old\)\)/≡ record { desk = (\1).desk; answer = (back_outcome desk 0 \2).answer; refusal = (\1).refusal }/
    s/desk\.tick(sample, journal)/let old = desk.step_back(0, journal).answer;\n    let mut out = desk.tick(sample, journal);\n    out.answer = old;\n    out/
}'
# a step back that is handed 16 bits of k
change foldharbor_back/src/lib.rt 's/desk k /desk (k % 65536) /; s/(k,/(k % 65536,/; /^ghost use Rattle\.std/s/{/{◌%◌, /'
# a restart that opens a desk of the card, and so refuses as an opening does
change foldharbor/src/lib.rt '/^pub fn foldharbor_restart(/,/^}$/{s/restart_outcome desk/open_outcome desk.card/; s/desk\.restart()/Desk::open(desk.card)/}'
# a reader that counts the runs as ticks
change foldharbor_exercise/src/lib.rt 's/file::read(exercise)/let mut counts = &;\n    let runs = counts.runs;\n    counts.ticks = runs;\n    counts/' \
    -e 's/≡ \(read_outcome exercise\.now\)/≡ record { refusal = (\1).refusal; cards = (\1).cards; runs = (\1).runs; ticks = (\1).runs }/'
# a call that tells why of the desk as its journal rebuilds it, and so never gives 23
change foldharbor_why/src/lib.rt 's/why_outcome desk \(journal\.now\)/why_outcome (back_outcome desk 0 \1).desk \1/' \
    -e 's/why::why(desk, journal)/let back = desk.step_back(0, journal).desk;\n    why::why(back, journal)/' \
    -e 's/^ghost use Rattle\.why.*/&\nghost use Rattle.desk.specs.Calls.{back_outcome};/'
refused "Functions:same_opens Functions:same_ticks Functions:same_steps_back Functions:same_restarts Functions:same_tells Functions:same_reads
    Functions:exported_same"

# ---- functions and their exports that are alike, and wrong
copy functions
# a step back that restarts
change desk/src/lib.rt '/pub fn step_back(/,/^    }$/{s/back_outcome self k journal\.now/restart_outcome self/; /^    {$/,/^    }$/c\
    {\
        self.restart()\
    }
}'
rm -r "$tree/crates/desk/proofs/Desk/step_back" || exit 1
change foldharbor_back/src/lib.rt 's/back_outcome desk k journal\.now/restart_outcome desk/; s/{back_outcome}/{restart_outcome}/'

# mode 1 in the desk of a refused opening
change desk/src/lib.rt 's/return refused(Desk::default(), \(.*\));/let mut zeros = Desk::default();\n            zeros.state.mode = 1;\n            return refused(zeros, \1);/'
change desk/specs/Desk.antt '/^no_desk = /s/ 0 }$/ 1 }/'

# 6 for a desk out of range, 5 for a journal shorter than 8n
change desk/src/lib.rt '/^pub fn fit_desk(/,/^}/{s/BadDesk/Other/; s/ShortJournal/BadDesk/; s/Other/ShortJournal/}'
change desk/specs/Calls.antt '/^desk_refusal /{s/bad_desk/other/; s/short_journal/bad_desk/; s/other/short_journal/}'
change desk/proofs/Calls.antt '/passed (/{s/bad_desk/other/; s/short_journal/bad_desk/; s/other/short_journal/}' \
    -e '/pub desk_bad /s/bad_desk/short_journal/; /pub desk_short /s/short_journal/bad_desk/'

# 14 where NZ1 alone is held, and why told of a closed valve
change why/src/lib.rt 's/desk\.state\.causes == 0/desk.state.causes == 1/'
change why/specs/Why.antt 's/eqb desk\.state\.causes 0/eqb desk.state.causes 1/'
change why/proofs/Calls.antt 's/eqb d\.state\.causes 0/eqb d.state.causes 1/; s/causes ≡ 0 → ⊥/causes ≡ 1 → ⊥/'
change why/proofs/Order.antt 's/causes ≡ 0/causes ≡ 1/'

# a journal that takes 7,199 records
change journal/src/lib.rt 's/\.min(record::MOST_TICKS as usize)/.min(7199)/'
change journal/specs/Journal.antt 's/min most_ticks/min 7199/'

# an answer with its lowest cause and its count of causes in each other's place, written and read so
change rules/src/lib.rt '/^ *answer\.lowest,$/{N;s/lowest,\(.*\)held,/held,\1lowest,/}' -e 's/byte_at(bytes, at, 6)/byte_at(bytes, at, 8)/' \
    -e 's/byte_at(bytes, at, 7)/byte_at(bytes, at, 6)/' -e 's/byte_at(bytes, at, 8)/byte_at(bytes, at, 7)/'
change rules/specs/Answer.antt 's/answer\.lowest ∷ answer\.held/answer.held ∷ answer.lowest/' \
    -e 's/(at + 6)/(at + 8)/; s/(at + 7)/(at + 6)/; s/(at + 8)/(at + 7)/'

refused "Functions:steps_back_is Demand1:open_no Refusals:desk_first Replay:why_open Demand3:room_for Valve:each"

# ---- a step back that may write the journal as it likes, which a law of `desk` and one of `foldharbor_back` would refuse
copy writes
change desk/proofs/Determined.antt '/^pub step_back_reads /d; /^step_back_reads /d'
change desk/src/lib.rt '/pub fn step_back(/,/^    }$/{s/&\[u8\]/\&mut [u8]/; s/journal\.now/journal.old/}'
change foldharbor_back/proofs/Determined.antt '/^pub step_back_reads /d; /^step_back_reads /d'
change foldharbor_back/src/lib.rt '/pub fn foldharbor_step_back(/,/^}$/{s/&\[u8\]/\&mut [u8]/; s/journal\.now/journal.old/}'
refused Functions:functions

[ ! -e "$room/missed" ]

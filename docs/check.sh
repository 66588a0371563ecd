#!/usr/bin/env bash
# Whether the documents name what is there: definitions `crate/File.name`, laws `crate/proofs/File.name`, functions `crate::name`
# or `crate::Type::name` and edits `crate/name` of RULES.md and CONTRACTS.md exist, CONTRACTS.md lists every edit, and every link leads to a file.
# And whether each exported function gets into the archive, is declared in the header, and hands on to the function of its name in the crate below, with
# the same parameters and clauses; and that one stands in CONTRACTS.md and has its lemmas.
cd "$(dirname "$0")/.." || exit 1
missing=0
miss() {
    echo "$1"
    missing=1
}
names=$(grep -oh '`[^`]*`' docs/RULES.md docs/CONTRACTS.md | tr -d '`' | sort -u)
for name in $names; do
    crate=${name%%/*}
    last=${name##*.}
    if [[ $name =~ ^[a-z0-9_]+/(proofs/)?[A-Z][A-Za-z0-9]*\.[A-Za-z0-9_?\'-]+$ ]]; then
        file=${name#"$crate"/}
        [[ $file == proofs/* ]] || file=specs/$file
        grep -Eq "^ *((abbrev|unfoldable|record|data|pub) )*${last/\?/\\?}( |\$)" "crates/$crate/${file%.*}.antt" 2>/dev/null || miss "no $name"
    elif [[ $name =~ ^([A-Za-z0-9_]+)::([A-Z][A-Za-z0-9]*::)?([a-z0-9_]+) ]]; then
        crate=${BASH_REMATCH[1]/Desk/desk}
        grep -Eq "fn ${BASH_REMATCH[3]}(<.*>)?\(" "crates/$crate"/src/*.rt 2>/dev/null || miss "no function $name"
        type=${BASH_REMATCH[2]%::}
        [ -z "$type" ] || grep -Eqw "(struct|enum|trait) $type" "crates/$crate"/src/*.rt 2>/dev/null || miss "no type of $name"
    elif [[ $name =~ ^[a-z0-9_]+/[a-z0-9_]+$ && -d crates/$crate ]]; then
        [ -f "crates/$crate/must-fail/${name#*/}.edit" ] || miss "no edit $name"
    fi
done
for edit in crates/*/must-fail/*.edit; do
    name=${edit#crates/}
    name=${name/\/must-fail/}
    grep -qF "\`${name%.edit}\`" docs/CONTRACTS.md || miss "not in CONTRACTS.md: ${name%.edit}"
done
objects=" $(sed -n 's/^objects="\([^"]*\)".*/\1/p' host/build.sh) "
for source in crates/*/src/*.rt; do
    crate=${source#crates/}
    crate=${crate%%/*}
    below=${crate%_c}
    for name in $(sed -n 's/^pub extern "C" fn \([a-z0-9_]*\).*/\1/p' "$source"); do
        [[ $objects == *" $crate "* ]] || miss "not in the archive that host/build.sh makes: $name"
        grep -q "^[a-z_0-9]* $name(" host/foldharbor.h || miss "the header has no $name"
        for part in asks promises; do
            grep -q "^pub ${name#foldharbor_}_$part : .*_exported.* ≡ .*_called" "crates/$crate/proofs/Same.antt" || miss "not in Same.antt of $crate: $name"
        done
        grep -q "^    $below::$name(" "$source" || miss "does not hand on to $below: $name"
        grep -q "\*\*\`$below::$name(" docs/CONTRACTS.md || miss "not in CONTRACTS.md: $name"
        grep -q "^use .*\.$name\.Reads as" "crates/$below/proofs/Determined.antt" || miss "not in Determined.antt of $below: $name"
    done
done
for page in README.md docs/*.md docs/changes/*.md texts/*.md tests/*.md; do
    for link in $(grep -o '](\([^)]*\))' "$page" | sed 's/^](//; s/)$//'); do
        [ -e "$(dirname "$page")/$link" ] || miss "$page: no $link"
    done
done
exit $missing

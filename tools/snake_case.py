#!/usr/bin/env python3
"""Spells our own definitions and lemmas as today's Rattle does: in snake case.

usage: python3 tools/snake_case.py     at the top of the repository, once, after the kit's port script

Every name that an .antt file of ours declares is turned: speedOf to speed_of, step7Cyclic to step_7_cyclic, card-ranges to card_ranges.
A dash stays where it joins two names, as in length-written and written-append; a lemma that would have a definition's name gets _lem. Types, modules,
constructors and the names that Rattle makes stay, as does all Rust code. Names that would fall together still stop it before anything is written.
"""

import glob
import re
import sys

WORD = r"[A-Za-z0-9_?'₀-₉Ͱ-Ͽ-]+"
DECLARED = re.compile(rf"^\s*(?:(?:abbrev|unfoldable|pub)\s+)*({WORD}) : ")
BOUND = re.compile(rf"\blet ({WORD}) (?::|=) ")
LAWS = {"append", "nil", "snoc", "take", "drop", "set"}
# a lemma that the port script gave the name of a definition
ALREADY = {"crates/exercise/proofs/Rebuilt.antt": ("answer_at", "answer_at_lem")}
CRATES = {path.split("/")[1] for path in glob.glob("crates/*/src")}
CLAUSE = re.compile(r"(?:ghost use [^;]*;|\b(?:requires|ensures)\b[^{;]*\{)")


def lines(path):
    with open(path, encoding="utf-8") as f:
        return f.read().split("\n")


def is_comment(line):
    return line.lstrip().startswith("--")


def declared(paths, pattern):
    return {m.group(1) for p in paths for line in lines(p) if not is_comment(line) for m in pattern.finditer(line)}


def humps(name):
    if not name[:1].islower():
        return name
    name = re.sub(r"^(steps?)(\d)", r"\1_\2", name)
    return re.sub(r"([a-z0-9])([A-Z])", lambda m: m.group(1) + "_" + m.group(2).lower(), name)


def dashes(name, definitions):
    parts = name.split("-")
    made = parts[0]
    for part in parts[1:]:
        both = made in definitions and part in LAWS or made == "length" and part in definitions | LAWS
        made += ("-" if both else "_") + part
    return made


def spelling():
    specs = glob.glob("crates/*/specs/*.antt")
    lemmas = glob.glob("crates/*/proofs/*.antt")
    folders = glob.glob("crates/*/proofs/*/**/*.antt", recursive=True)
    definitions = {humps(n) for n in declared(specs, DECLARED) if n[:1].islower()}
    # an answer of a function's proof, by whatever name Rattle makes, stays
    answers = re.compile(rf"^({WORD}) : tie\.")
    made = declared(folders, answers)
    ours = declared(specs + lemmas, DECLARED) | declared(folders, DECLARED) - made | declared(specs + lemmas + folders, BOUND)
    new = {n: dashes(humps(n), definitions) for n in ours if n[:1].islower()}
    taken = {s for n, s in new.items() if "-" not in n}
    new = {n: s + "_lem" if "-" in n and s in taken else s for n, s in new.items()}
    return {n: s for n, s in new.items() if s != n}, ours - {old for old, _ in ALREADY.values()}


def parted(path, text):
    old, new = ALREADY.get(path, ("", ""))
    return re.sub(WORD, lambda m: new if m.group(0) == old else m.group(0), text) if old else text


def of_libraries(text):
    """The names that a file takes from libraries: those stay."""
    uses = re.findall(r"(?m)^\s*(?:ghost )?use ([^\s{;]+)\.\{([^}]*)\}", text)
    own = {"Rattle." + crate for crate in CRATES}
    return {name.strip() for path, names in uses if ".".join(path.split(".")[:2]) not in own for name in names.split(",")}


def turned(text, names):
    stay = of_libraries(text)
    return re.sub(WORD, lambda m: m.group(0) if m.group(0) in stay else names.get(m.group(0), m.group(0)), text)


def clauses(text, names):
    """Rust code with its clauses turned alone."""
    out, at = [], 0
    while m := CLAUSE.search(text, at):
        end = m.end()
        if m.group(0).endswith("{"):
            depth = 1
            while depth:
                depth += {"{": 1, "}": -1}.get(text[end], 0)
                end += 1
        out += [text[at : m.start()], turned(text[m.start() : end], names)]
        at = end
    return "".join(out) + text[at:]


def edit(text, names):
    humped = {n: s for n, s in names.items() if "-" not in n}
    return "\n".join(turned(line, names if ".antt" in text else humped) if line.startswith(("old:", "new:")) else line for line in text.split("\n"))


def document(text, names):
    return re.sub(r"`[^`\n]+`", lambda m: turned(m.group(0), names), text)


def fallen(path, text, names, ours):
    """The names of ours in a file that become one."""
    found, of = set(re.findall(WORD, text)) & ours, {}
    for word in found:
        of.setdefault(names.get(word, word), set()).add(word)
    return [f"{path}: {' and '.join(sorted(words))} both become {name}" for name, words in of.items() if len(words) > 1]


def main():
    names, ours = spelling()
    kinds = [
        (turned, glob.glob("crates/**/*.antt", recursive=True)),
        (clauses, glob.glob("crates/*/src/**/*.rt", recursive=True)),
        (edit, glob.glob("crates/*/must-fail/*.edit")),
        (document, ["README.md", "tests/README.md", "texts/README.md", *glob.glob("docs/*.md"), *glob.glob("docs/changes/*.md")]),
    ]
    texts = [(turn, path, parted(path, "\n".join(lines(path)))) for turn, paths in kinds for path in sorted(paths) if "/out/" not in path]
    together = [it for turn, path, text in texts if turn is turned for it in fallen(path, text, names, ours)]
    if together:
        print("\n".join(together))
        return 1
    changed = 0
    for turn, path, text in texts:
        new = turn(text, names)
        if new != text:
            changed += 1
            with open(path, "w", encoding="utf-8") as f:
                f.write(new)
    print(f"{len(names)} names, {changed} files")
    return 0


if __name__ == "__main__":
    sys.exit(main())

#!/usr/bin/env python3
"""The shape of the code: shape.py [--list].

No function in crates/*/src may have more than 40 lines beside its clauses, and no line more than 120 columns, but for hints
(`#[tactic(..)]`), which rt fmt keeps on one line, and for texts of tests. A file of code, specs or proofs has at most 400
lines; those that are longer are named in LONGER, and may not grow. The name of a function or of a definition is no bare
participle, but for those in WORDS. `--list` prints all that is wrong.
"""
import os
import re
import sys

HOME = os.path.dirname(os.path.dirname(os.path.abspath(__file__)))
COLUMNS, FUNCTION, FILE = 120, 40, 400
LONGER = {
    "crates/def_map/proofs/LoopFacts.antt": 566,
    "crates/def_map/proofs/CrateNumbers.antt": 533,
    "crates/item_tree/src/items.rt": 540,
    "crates/rust_cursor/src/cursor/nest.rt": 415,
    "crates/rust_cursor/src/cursor/texts.rt": 596,
    "crates/rust_lexer/src/lexer.rt": 518,
}
# A law that others cite, a command, what rust-analyzer has, and words of the field.
WORDS = {"opened", "changed", "prefixed", "bumped", "kept", "children", "open"}
NAMED = re.compile(r"\s*(?:pub(?:\(\w+\))? )?(?:const )?fn ([a-z]+)\b|(?:abbrev|unfoldable) (?:pub )?([a-z]+) :")
PARTICIPLE = re.compile(r"\w+(ed|en|wn)$|(told|kept|held|lent|met|left|led|begun)$")
BEGINS = re.compile(r"(\s*)(pub(\(\w+\))? )?(const )?(unsafe )?fn \w")


def files(ending):
    for folder, below, names in os.walk(f"{HOME}/crates"):
        below[:] = sorted(it for it in below if it != "out")
        yield from (os.path.join(folder, it) for it in sorted(names) if it.endswith(ending))


def lines_of(path):
    with open(path, encoding="utf-8") as file:
        return file.read().splitlines()


def long_functions(lines):
    """The first line and the length of each function that is too long. It ends at a brace as far in as its `fn`."""
    begin, indent, clauses, length = None, "", False, 0
    for number, line in enumerate(lines, 1):
        if begin is None and (found := BEGINS.match(line)):
            begin, indent, clauses, length = number, found[1], False, 0
        if begin is None:
            continue
        clauses = (clauses or re.match(r"\s*(requires|ensures)\b", line)) and line != indent + "{"
        length += not clauses
        if line in (indent + "}", indent + "{}") or line.endswith("}") and number == begin:
            if length > FUNCTION:
                yield begin, length
            begin = None


def participles(lines):
    """The lines of functions and definitions that are called by a bare participle."""
    for number, line in enumerate(lines, 1):
        if found := NAMED.match(line):
            word = found[1] or found[2]
            if PARTICIPLE.match(word) and word not in WORDS:
                yield number, word


def is_wide(name, line):
    return len(line) > COLUMNS and "#[tactic(" not in line and not name.startswith("crates/item_tree_tests/")


def main():
    faults, count = [], 0
    for path in [*files(".rt"), *files(".antt")]:
        lines, name = lines_of(path), os.path.relpath(path, HOME)
        count += 1
        if len(lines) > LONGER.get(name, FILE):
            faults.append(f"{name}: {len(lines)} lines")
        if name.endswith(".rt") or "/specs/" in name:
            faults += [f"{name}:{n}: {word} is a bare participle" for n, word in participles(lines)]
        if name.endswith(".rt"):
            faults += [f"{name}:{n}: {len(line)} columns" for n, line in enumerate(lines, 1) if is_wide(name, line)]
            faults += [f"{name}:{n}: a function of {length} lines" for n, length in long_functions(lines)]
    print("\n".join(faults if "--list" in sys.argv[1:] else faults[:20]), end="\n" if faults else "")
    print(f"shape: {count} passed, {len(faults)} failed")
    return 1 if faults else 0


if __name__ == "__main__":
    sys.exit(main())

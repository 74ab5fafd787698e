#!/usr/bin/env python3
"""Counts the words of specs that two modules define, each with a meaning of its own, and fails above a number that only falls.

    one_meaning.py          tells the count
    one_meaning.py --list   tells each such word too, with the modules that define it

It reads the sources, and proves nothing.
"""
import collections
import pathlib
import re
import sys

# How many there were when this was last lowered. A change that brings one more gives it another name, or takes the word that stands.
MOST = 1
DEFINED = re.compile(r"(?: *(?:abbrev|unfoldable) pub|pub(?: data| record)?) +([^\s:(){}=]+)")


def words_of(module):
    """The public words that a module of specs defines."""
    for line in module.read_text(encoding="utf-8").splitlines():
        found = DEFINED.match(line)
        if found and found[1] not in ("mod", "use"):
            yield found[1]


def main():
    modules = collections.defaultdict(set)
    for module in sorted(pathlib.Path("crates").glob("*/specs/**/*.antt")):
        crate, _, *names = module.with_suffix("").parts[1:]
        for word in words_of(module):
            modules[word].add(f"{crate}:{'/'.join(names)}")
    shared = {word: places for word, places in modules.items() if len(places) > 1}
    if "--list" in sys.argv[1:]:
        for word, places in sorted(shared.items(), key=lambda it: (-len(it[1]), it[0])):
            print(f"{word}: {', '.join(sorted(places))}")
    is_well = 0 < len(modules) and len(shared) <= MOST
    if not is_well:
        print(f"{len(shared)} of {len(modules)} words of specs are defined in two modules or more, where {MOST} may be")
    print(f"one_meaning: {int(is_well)} passed, {int(not is_well)} failed")
    return 0 if is_well else 1


if __name__ == "__main__":
    sys.exit(main())

#!/usr/bin/env python3
"""The tables of quick tests of words, made of the words that definitions name.

A table has a number for the last five bits of a byte, with a bit for each length of the words that have such a byte: their
first, the one in their middle, or their last. Of each table in the code that is another, it prints what it has to be.
"""
import os
import re
import sys

HOME = os.path.dirname(os.path.dirname(os.path.abspath(__file__)))
BYTES = {"FIRST": lambda word: word[0], "MIDDLE": lambda word: word[len(word) // 2], "LAST": lambda word: word[-1]}
# The file of the tables, the beginning of their names, the file of the definitions, and these.
TABLES = [
    ("rust_cursor/src/cursor/keywords.rt", "ITEM", "rust_cursor/specs/Extents",
     ["is_item_word", "begins_item", "begins_impl_or_const"]),
    ("rust_cursor/src/cursor/keywords.rt", "LEADING", "rust_cursor/specs/Nests", ["leads_on"]),
    ("rust_leaves/src/modifiers.rt", "MODIFIERS", "rust_leaves/specs/Heads", ["modifier", "weak_modifier"]),
    ("rust_paths/src/names.rt", "KEYWORD", "rust_paths/specs/Names",
     ["keywords", "keywords_since_2018", "keywords_since_2024"]),
    ("rust_paths/src/names.rt", "PATH", "rust_paths/specs/Names", ["path_keywords"]),
]


def read(name):
    with open(f"{HOME}/crates/{name}", encoding="utf-8") as file:
        return file.read()


def words_of(module, names):
    """The words that these definitions name; of looks, those that come next, and not those behind another."""
    text, words = read(f"{module}.antt"), []
    for name in names:
        body = re.search(rf"^{name}\b[^:\n]*=(.*?)(?=\n\n|\Z)", text, re.M | re.S)[1]
        next_words = re.findall(r'(?:by_word|then_seen \(word_is) \(codes "(\w+)"\)', body)
        words += next_words or re.findall(r'codes "(\w+)"', body)
    return sorted(set(words))


def table_of(words, byte):
    numbers = [0] * 32
    for word in words:
        numbers[ord(byte(word)) % 32] |= 1 << len(word)
    return numbers


def main():
    passed = failed = 0
    for file, begin, module, names in TABLES:
        text, words = read(file), words_of(module, names)
        for found in re.finditer(rf"static ({begin}(?:_(\w+))?): \[u16; 32\] = \[([^\]]*)\];", text):
            numbers = table_of(words, BYTES[found[2] or "FIRST"])
            if [int(it) for it in re.findall(r"\d+", found[3])] == numbers:
                passed += 1
            else:
                failed += 1
                print(f"{file}: {found[1]} is not that of {', '.join(words)}")
                print("   ", numbers)
    print(f"tables: {passed} passed, {failed} failed")
    return 1 if failed or passed == 0 else 0


if __name__ == "__main__":
    sys.exit(main())

#!/usr/bin/env python3
"""Counts the words of the documents, their sentences of more than forty words and their old words, and fails above numbers that only fall.

    sentences.py          prints the counts
    sentences.py --list   prints them for each document, with each such sentence and each part with an old word

Words are those of `wc -w`; those of README.md without its blocks of code have a bound of their own. Of sentences, blocks of code are left out, and what stands in backticks is one word; list items, cells of
tables and headings end one. What a script wrote is counted by itself, and has no bound: it says what comments in the sources say. So is
docs/DEFINITIONS.md, most of which a script writes.

Old words are those for which plain English has another: report, print or record, after, except, compared with, must. In backticks they
are names of the code. The manual pages have those of the programs' help.
"""
import pathlib
import re
import sys

# How many there were when these were last lowered.
MOST_WORDS = 19_493
MOST_LONG = 0
LONGEST = 40
# Words of the first page, without its blocks of code.
FRONT, MOST_FRONT = "README.md", 900
PLACES = ("*.md", "docs/*.md", "docs/api/README.md", "bench/*.md", "crates/*/README.md")
MANUALS = "docs/man/*.1"
# A page that is counted by itself.
APART = "docs/DEFINITIONS.md"
# What stands before that part of a page that a script writes.
MADE = "<!-- What follows is written by "
# What ends a sentence, before what may begin one.
END = re.compile(r"(?<=[.?!])[)\"]?\s+(?=[A-Z0-9`\[*\"(])")
CODE = re.compile(r"^ *```.*?^ *```", flags=re.M | re.S)
OLD = re.compile(r"\b(tells?|telling|told|behind|but for|h(?:eld|olds?) against|(?:is|are|was|were) wanted|less is wrong)\b", flags=re.I)
# How many old words a document may have, if any.
MOST_OLD = {
    "CHANGELOG.md": 4,
    "crates/def_map/README.md": 4,
    "crates/message_stream/README.md": 2,
    "crates/rust_edits/README.md": 5,
    "crates/rust_items/README.md": 1,
    "crates/rust_lexer/README.md": 1,
    "crates/source_changes/README.md": 3,
    "crates/source_rows/README.md": 1,
    "crates/tree_walk/README.md": 1,
    "docs/EDITORS.md": 2,
    "docs/ITEMTREE.md": 33,
    "docs/PROVED.md": 1,
    "docs/man/itemtree.1": 12,
}


def parts(text):
    """The paragraphs, list items, cells and headings of a document, each on one line."""
    text = CODE.sub("\n", text)
    text = re.sub(r"`[^`]*`", lambda found: "`x`", text)
    text = re.sub(r"^\s*(?:[-*]|\d+\.|#+)\s", "\n\n", text, flags=re.M)
    for part in re.split(r"\n\s*\n|(?<=\|)\s*\n|(?:^|\s)\|(?:\s|$)", text):
        yield " ".join(part.split())


def check_old_words(page, text, is_listed):
    """How many old words a document has, and whether these are not too many."""
    found = [part for part in parts(text) for _ in OLD.finditer(part)]
    is_well = len(found) <= MOST_OLD.get(str(page), 0)
    if is_listed or not is_well:
        print(f"{page}: {len(found)} old words, of {MOST_OLD.get(str(page), 0)} at most")
    if is_listed:
        for part in found:
            print(f"    {OLD.findall(part)}: {part}")
    return len(found), is_well


def main():
    is_listed = "--list" in sys.argv[1:]
    words, guides, made_words, front, long, old, is_well = 0, 0, 0, 0, [], 0, True
    for page in sorted(it for place in (*PLACES, MANUALS) for it in pathlib.Path(".").glob(place)):
        text, _, made = page.read_text(encoding="utf-8").partition(MADE)
        count, is_page_well = check_old_words(page, text, is_listed)
        old, is_well = old + count, is_well and is_page_well
        if page.match(MANUALS):
            continue
        found = [it for part in parts(text) for it in END.split(part) if len(it.split()) > LONGEST]
        if str(page) == APART:
            made_words += len(text.split())
        else:
            words += len(text.split())
            if str(page) == FRONT or page.parts[0] == "docs":
                guides += len(text.split())
        if str(page) == FRONT:
            front = len(CODE.sub("", text).split())
        made_words += len(made.split())
        long += found
        if is_listed:
            print(f"{page}: {len(text.split())} words, {len(found)} long sentences")
            for sentence in found:
                print(f"    {len(sentence.split())}: {sentence}")
    print(
        f"{words} words, {guides} of them in {FRONT} and docs, {front} in {FRONT} without code, and {made_words} of definitions; "
        f"{len(long)} sentences of more than {LONGEST} words; {old} old words"
    )
    if not (0 < words <= MOST_WORDS and 0 < front <= MOST_FRONT and len(long) <= MOST_LONG):
        print(f"at most {MOST_WORDS} words, {MOST_FRONT} in {FRONT}, and {MOST_LONG} such sentences may be in the documents")
        is_well = False
    print(f"sentences: {int(is_well)} passed, {int(not is_well)} failed")
    return not is_well


if __name__ == "__main__":
    sys.exit(main())

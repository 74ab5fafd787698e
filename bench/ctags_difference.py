#!/usr/bin/env python3
r"""Counts the tags that Universal Ctags and `itemtree tags` have of a folder's Rust files, and those that only one has, by reason.

    ctags_difference.py PROGRAM FOLDER          tells the counts
    ctags_difference.py --list PROGRAM FOLDER   tells each tag that only one has too

A tag is a name on a line of a file, with the letter of its kind. Of the library of rustc 1.63 Universal Ctags 5.9 has 54,089 tags, and
`itemtree tags --bodies` 52,949. Both have 48,088 of them; of these 864 stand in another scope: where an impl is of no path, as `*mut T`, ctags
takes a name in it, and of headers with `->`, `>>` or brackets behind `where` it often takes none. The others are:

    only Universal Ctags     5,166   impls, which have no name of their own
                               774   members of impls with such headers, as functions
                                51   items in the bodies of functions, most of them in what macros are given
                                10   `str` of `&'static str` as a static, and items in bodies behind such headers
    only itemtree            3,803   constants, which ctags passes over
                               786   those members as members
                               230   what stands behind `"\\"`, `br"\"`, `<<` and more that ctags does not read, often up to the end of a file
                                42   macros of the keyword `macro`
"""
import collections
import re
import subprocess
import sys


def tags_of(words):
    """The tags that a command writes, each with its scope."""
    said = subprocess.run(words, capture_output=True, check=True).stdout.decode(errors="replace")
    found = {}
    for line in said.splitlines():
        if line.startswith("!_TAG"):
            continue
        name, file, rest = line.split("\t", 2)
        address, _, fields = rest.partition(';"\t')
        letter, *more = fields.split("\t")
        scope = [field for field in more if not field.startswith("signature:")]
        found[name.removeprefix("r#"), file, int(address), letter] = scope[0] if scope else ""
    return found


def bodies_of(found):
    """The functions of these tags, as the scopes of what stands in them begin."""
    return {(file, f"{scope.partition(':')[2]}::{name}".removeprefix("::")) for (name, file, _, letter), scope in found.items() if letter in "fP"}


def is_inside(file, scope, bodies):
    """Whether a scope is, or stands in, the body of a function."""
    names = scope.partition(":")[2].split("::")
    return any((file, "::".join(names[:count])) in bodies for count in range(1, len(names) + 1))


def line_of(file, line, texts):
    if file not in texts:
        texts[file] = open(file, encoding="utf-8", errors="replace").read().split("\n")
    return texts[file][line - 1]


def their_reason(tag, scope, ours, bodies):
    """Why `itemtree` does not have a tag of Universal Ctags."""
    name, file, line, letter = tag
    if letter == "c":
        return "an impl"
    if is_inside(file, scope, bodies):
        return "an item in the body of a function"
    if letter == "f" and (name, file, line, "P") in ours:
        return "a member as a function"
    return "other"


def our_reason(tag, theirs, texts):
    """Why Universal Ctags does not have a tag of `itemtree`."""
    name, file, line, letter = tag
    if letter == "C":
        return "a constant"
    if letter == "P" and (name, file, line, "f") in theirs:
        return "a member as a member"
    if letter == "M" and re.search(r"\bmacro\s", line_of(file, line, texts)):
        return "a macro 2.0"
    return "other: behind what Universal Ctags does not read"


def main():
    is_listed = sys.argv[1:2] == ["--list"]
    program, folder = sys.argv[1 + is_listed:]
    theirs = tags_of(["ctags", "--languages=Rust", "--fields=ks", "--excmd=number", "--sort=no", "-f", "-", "-R", folder])
    ours = tags_of([program, "tags", "--bodies", "--edition", "2021", "--fields=ks", "--excmd", "number", "-o", "-", folder])
    texts, bodies = {}, bodies_of(theirs)
    print(f"Universal Ctags {len(theirs)}, itemtree {len(ours)}, both {len(theirs.keys() & ours.keys())}")
    print(f"both, with another scope: {sum(theirs[tag] != ours[tag] for tag in theirs.keys() & ours.keys())}")
    for who, found, reason in (("Universal Ctags", theirs.keys() - ours.keys(), lambda tag: their_reason(tag, theirs[tag], ours, bodies)),
                               ("itemtree", ours.keys() - theirs.keys(), lambda tag: our_reason(tag, theirs, texts))):
        reasons = collections.Counter()
        for tag in sorted(found):
            reasons[reason(tag)] += 1
            if is_listed:
                print(f"{tag[1]}:{tag[2]}: {tag[3]} {tag[0]}: only {who}: {reason(tag)}")
        for reason_told, count in reasons.most_common():
            print(f"only {who}: {count} {reason_told}")


if __name__ == "__main__":
    main()

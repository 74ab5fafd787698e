#!/usr/bin/env python3
"""Makes the end of docs/DEFINITIONS.md: the definitions that public contracts cite, each with its comment, and the rules of the reader.

    definitions.py           writes it, and leaves what stands before it as it is
    definitions.py --check   writes nothing, and fails if the page is not what it would write

A definition is listed if a clause of a public function, of a method of a trait or of an `impl` names it, and a comment stands
above it in `specs/`; the others that are named are counted. It reads the sources, and proves nothing.
"""
import collections
import pathlib
import re
import sys
import textwrap

from rules import Rules

PAGE = pathlib.Path("docs/DEFINITIONS.md")
MARK = "<!-- What follows is written by tests/definitions.py. -->\n"
DEFINED = re.compile(r"^ *(?:(?:abbrev|unfoldable) pub|pub(?: data| record)?) +([^\s:(){}=]+)")
RULES = """
## The rules of the reader

Each as its definition has it, of that name: `[x]` may be missing, `{x}` is repeated, of `|` the first that fits counts, `<x>` comes next
and stays, and `bracket(x)` passes over what is left in the bracket. What is not here is a definition of its own.
"""
# `ghost use Rattle.CRATE.specs.MODULE.{a, b as c};`, `ghost use Rattle.CRATE.specs.{MODULE.a, MODULE.b};`, or the same without the braces
# and with a name for the module.
USED = re.compile(r"ghost use Rattle\.(\w+)\.specs(?:\.([\w.]+?))?(?:\.\{([^}]*)\}|(?: as (\w+))?);")
# Modules for private contracts, and for the codes of views.
CLOSED = re.compile(r"(Inner|Code)\b")
WORD = re.compile(r"[^\s(){}\[\],;@]+")


def comments_of(crate):
    """The definitions of a crate's specs, by module and name: each with the comment above it, or with nothing."""
    found = {}
    for page in sorted((crate / "specs").glob("**/*.antt")):
        module = ".".join(page.relative_to(crate / "specs").with_suffix("").parts)
        above = []
        for line in page.read_text(encoding="utf-8").splitlines():
            defined = DEFINED.match(line)
            if line.strip().startswith("--"):
                above.append(line.strip().strip("- "))
                continue
            if defined and defined[1] not in ("mod", "use"):
                found[module, defined[1]] = " ".join(above)
            if line.strip() not in ("abbrev mutual", "mutual"):
                above = []
    return found


def names_of(text):
    """What the names of a source file mean in its clauses: definitions, and modules under a name of their own."""
    definitions, modules = {}, {}
    for crate, module, names, alias in USED.findall(text):
        if names:
            for name in names.split(","):
                path, *other = name.split(" as ")
                head, _, word = f"{module}.{path.strip()}".strip(".").rpartition(".")
                definitions[(other or [word])[0].strip()] = (crate, head, word)
        elif alias:
            modules[alias] = (crate, module)
        else:
            head, _, word = module.rpartition(".")
            definitions[word] = (crate, head, word)
    return definitions, modules


def public_clauses(text):
    """The clauses of a source file that callers in other crates see."""
    is_trait = in_clauses = False
    for line in text.splitlines():
        begun = line.strip()
        if re.match(r"impl\b", line):
            is_trait = " for " in line
        elif re.match(r"(pub )?trait\b", line):
            is_trait = True
        elif re.match(r"[a-z]", line):
            is_trait = False
        if re.match(r"(pub(\(\w+\))? )?fn ", begun):
            in_clauses = begun.startswith("pub fn") or (is_trait and begun.startswith("fn"))
        if begun in ("{", "}") or begun.startswith("///") or re.match(r"(pub |fn |\)).*\{$", begun):
            in_clauses = False
        elif in_clauses or (is_trait and begun.startswith("ghost ")):
            yield line


def cited_in(source):
    """The definitions that the public clauses of a source file name."""
    text = source.read_text(encoding="utf-8")
    definitions, modules = names_of(text)
    for clause in public_clauses(text):
        for word in WORD.findall(clause):
            head, _, rest = word.partition(".")
            if word in definitions:
                yield definitions[word]
            elif head in modules and rest:
                yield (*modules[head], rest)
            elif head in definitions:
                yield definitions[head]


def library():
    """The names of the crates with specs, in the order of crates.txt."""
    lines = pathlib.Path("crates.txt").read_text(encoding="utf-8").splitlines()
    names = [line.partition(":")[0] for line in lines if line and not line.startswith("#")]
    return [name for name in names if pathlib.Path("crates", name, "specs").is_dir()]


def wrapped(entry):
    """A line of the list, in the width of documents."""
    return textwrap.fill(entry, 140, initial_indent="  - ", subsequent_indent="    ", break_on_hyphens=False)


def made():
    """The list, and the number of definitions in it."""
    crates = library()
    comments = {(name, *key): text for name in crates for key, text in comments_of(pathlib.Path("crates", name)).items()}
    sources = pathlib.Path("crates").glob("*/src/**/*.rt")
    cited = {it for source in sources for it in cited_in(source) if not CLOSED.match(it[1])}
    bare = sum(1 for it in cited if comments.get(it) == "")
    lines, count = [], 0
    for name in crates:
        modules = collections.defaultdict(list)
        for crate, module, word in comments:
            if crate == name and (crate, module, word) in cited and comments[crate, module, word]:
                modules[module].append(f"`{word}`: {comments[crate, module, word]}")
        if modules:
            lines.append(f"\n### `{name}`\n")
        for module, entries in modules.items():
            count += len(entries)
            lines += [f"- `{module}`", *(wrapped(entry) for entry in entries)]
    return f"\n{count} definitions, and {bare} more that are cited and have no comment.\n" + "\n".join(lines) + "\n" + RULES + "".join(Rules().text()), count


def main():
    head, mark, kept = PAGE.read_text(encoding="utf-8").partition(MARK)
    text, count = made()
    is_right = bool(mark) and kept == text
    if "--check" not in sys.argv[1:]:
        PAGE.write_text(head + MARK + text, encoding="utf-8")
        print(f"{PAGE} has {count} definitions")
        return 0
    if not is_right:
        print(f"{PAGE} is not what tests/definitions.py writes: run it, and commit the page")
    print(f"definitions: {int(is_right)} passed, {int(not is_right)} failed")
    return 0 if is_right else 1


if __name__ == "__main__":
    sys.exit(main())

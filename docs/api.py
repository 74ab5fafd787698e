#!/usr/bin/env python3
"""Writes docs/api/CRATE.md for each crate that a user takes: its public items with their docstrings and contracts, as the sources have them.

    docs/api.py          writes the pages
    docs/api.py --check  writes nothing, and fails if a page is not what it would write
"""
import re
import sys
from pathlib import Path

TOP = Path(__file__).resolve().parent.parent
CRATES = (
    "hir_input item_tree_attrs item_tree item_tree_db tree_walk decl_index "
    "rust_items itemtree_commands def_map source_problems source_listing source_imports source_tags rust_edits text_session language_names line_index globs list_forms itemtree_options hir_input_json item_tree_request message_stream lsp module_tree cargo_manifest"
).split()
ITEM = re.compile(r"pub (?:const fn|fn|struct|enum|trait|type|const|static) (\w+)")
CLAUSE = re.compile(r"(requires|ensures|ghost)\b")


def docs_above(lines, at):
    """The docstring above a line, without its slashes."""
    found = []
    while at and re.match(r"\s*(///|#\[|//(?!/)|ghost use)", lines[at - 1]):
        at -= 1
        if "///" in lines[at]:
            found.append(re.sub(r"^\s*/// ?", "", lines[at]).replace("# Errors", "**Errors**"))
    return "\n".join(reversed(found))


def block(lines, at):
    """The lines from one on up to that which closes what it opens, at its own indentation."""
    indent = re.match(r" *", lines[at])[0]
    if not lines[at].rstrip().endswith(("{", "(")):
        return lines[at : at + 1]
    for end in range(at + 1, len(lines)):
        if re.match(indent + r"[})]", lines[end]):
            return lines[at : end + 1]
    return lines[at:]


def signature(lines, at):
    """A function's head with its clauses, without its body."""
    indent = len(re.match(r" *", lines[at])[0])
    found = []
    for line in lines[at:]:
        text = line[indent:].rstrip()
        if text in ("{", "{}"):
            break
        is_clause = CLAUSE.match(text.strip()) or found and text.startswith("        ")
        if not is_clause and text.endswith((" {", " {}")):
            found.append(text[: text.rindex(" {")])
            break
        found.append(text.removesuffix(";"))
        if text.endswith(";"):
            break
    return "\n".join(found)


def definition(lines, at):
    """A type as its users see it: without what is private or for proofs."""
    whole = block(lines, at)
    head = lines[at].rstrip()
    if len(whole) == 1:
        return re.sub(r"\((?!pub)[^()]*\);$", "(/* private field */);", head) if head.startswith("pub struct") else head
    kept, is_private = [], False
    for line in whole[1:-1]:
        text = line.strip()
        if re.match(r"//(?!/)|#\[|ghost ", text) or not text:
            continue
        if head.startswith("pub struct") and re.match(r"    \w", line) and not text.startswith("pub "):
            is_private = True
            while kept and kept[-1].strip().startswith("///"):
                kept.pop()
            continue
        kept.append(line.rstrip())
    if is_private:
        kept.append("    /* private fields */")
    return "\n".join([head, *kept, whole[-1].strip()])


class Crate:
    def __init__(self, name):
        self.name, self.folder = name, TOP / "crates" / name / "src"
        self.files = {it: it.read_text().split("\n") for it in sorted(self.folder.rglob("*.rt"))}
        self.items = []  # (name, kind, text, docs)
        self.seen = set()
        self.module(self.folder / "lib.rt", "")

    def module(self, file, path):
        lines = self.files[file]
        text = "\n".join(lines)
        folder = file.parent if file.name == "lib.rt" else file.with_suffix("")
        for at, line in enumerate(lines):
            if ITEM.match(line):
                self.add(file, at, path)
        for name in re.findall(r"^pub mod (\w+);", text, re.M):
            below = folder / f"{name}.rt"
            if below in self.files:
                self.module(below, f"{path}{name}::")
        for whole in re.findall(r"^pub use ([^;]+);", text, re.M):
            for name in re.findall(r"\w+", whole[whole.rindex("::") + 2 :]):
                self.exported(name, path)

    def exported(self, name, path):
        for file, lines in self.files.items():
            for at, line in enumerate(lines):
                found = ITEM.match(line)
                if found and found[1] == name:
                    return self.add(file, at, path)

    def add(self, file, at, path):
        lines = self.files[file]
        name = ITEM.match(lines[at])[1]
        if name in self.seen:
            return
        self.seen.add(name)
        docs = docs_above(lines, at)
        if re.match(r"pub (const )?fn", lines[at]):
            self.items.append((path + name, signature(lines, at), docs))
        elif lines[at].startswith("pub trait"):
            self.items.append((path + name, lines[at].rstrip(" {"), docs))
            self.methods(lines, at, path + name, r"    (?:fn|const) (\w+)")
        else:
            self.items.append((path + name, definition(lines, at), docs))
            for others in self.files.values():
                for place, line in enumerate(others):
                    if re.match(rf"impl(<[^>]*>)? {name}\b[^!]*{{$", line) and " for " not in line:
                        self.methods(others, place, path + name, r"    pub (?:const )?(?:fn|const) (\w+)")

    def methods(self, lines, at, owner, form):
        whole = block(lines, at)
        for place in range(len(whole)):
            found = re.match(form, whole[place])
            if found:
                self.items.append((f"{owner}::{found[1]}", signature(whole, place), docs_above(whole, place)))

    def page(self):
        lines = self.files[self.folder / "lib.rt"]
        about = [it[4:] for it in lines if it.startswith("//! ")]
        parts = [f"# {self.name}", " ".join(about)]
        for name, text, docs in self.items:
            parts += [f"## {name}", f"```rust\n{text}\n```"] + [docs] * bool(docs)
        return "\n\n".join(parts) + "\n"


def main(words):
    is_check, wrong = words == ["--check"], 0
    folder = TOP / "docs" / "api"
    folder.mkdir(exist_ok=True)
    for name in CRATES:
        file, page = folder / f"{name}.md", Crate(name).page()
        if not is_check:
            file.write_text(page)
        elif not file.is_file() or file.read_text() != page:
            print(f"docs/api/{name}.md is not what docs/api.py writes")
            wrong += 1
    if is_check:
        print(f"api: {len(CRATES) - wrong} passed, {wrong} failed")
    return 1 if wrong else 0


sys.exit(main(sys.argv[1:]))

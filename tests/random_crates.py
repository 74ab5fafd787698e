#!/usr/bin/env python3
"""Random small crates of few names, and a second program of what is told of their imports: random_crates.py PROGRAM

    random_crates.py PROGRAM [--count N] [--seconds N] [--seed S]     `PROGRAM check --crate` tells exactly the imports that the second program tells
    random_crates.py PROGRAM --rustc [..]                             rustc refuses each of them, too: macros and another crate stand behind what is unseen
    random_crates.py PROGRAM --show K [..]                            writes the K-th crate, and what both tell

A crate has modules inline and in files, items of each kind, visibilities, imports of each form, and all that may veil names: macro calls,
attributes, derives, cfgs, other crates, missing files. `-` as PROGRAM: rustc alone. The second program makes a crate's names and imports from what was
drawn, never from its text. Prints `random_crates: N passed, M failed`."""
import argparse
import collections
import json
import os
import random
import shutil
import subprocess
import sys
import tempfile
import time
from dataclasses import dataclass, field

NAMES = ["a", "b", "c"]
SPACES = ("types", "values", "macros")

# ---- what is drawn


@dataclass(eq=False)
class Item:
    """An item: `kind` is its word; `more` is what else its kind has. An attribute is its text and what it does."""
    kind: str
    name: str = ""
    visibility: str = ""
    attributes: list = field(default_factory=list)
    more: object = None

    def has(self, effect):
        return any(it == effect for _, it in self.attributes)


@dataclass(eq=False)
class Tree:
    """A use tree: its words, and a list of trees, `*`, or a name that may be renamed."""
    words: list
    kind: str
    alias: str = ""
    trees: list = field(default_factory=list)


@dataclass(eq=False)
class Drawn:
    """A crate: its files (inner attribute and items), and what it is told by its manifest, if it has one."""
    edition: str
    files: dict
    root: str
    features: list = None
    dependencies: list = None
    has_more: bool = False


NO_EFFECT = [("#[allow(dead_code)]", ""), ("#[doc(hidden)]", ""), ("#[rustfmt::skip]", ""), ("#[cfg(all())]", ""), ("#[cfg(not(foo))]", ""), ("#[cfg(unix)]", ""),
             ("#[cfg_attr(any(), proc::drop)]", ""), ('#[cfg(not(feature = "off"))]', "")]
OFF = [("#[cfg(any())]", "off"), ("#[cfg(windows)]", "off"), ("#[cfg(test)]", "off"), ('#[cfg(feature = "off")]', "feature"), ("#[cfg(foo)]", "lost"),
       ("#[cfg(all(foo, windows))]", "lost"), ('#[cfg(feature = "none")]', "lost")]
FOREIGN = [("#[proc::keep]", "foreign"), ("#[proc::drop]", "foreign"), ("#[cfg_attr(all(), proc::keep)]", "foreign")]
DERIVES = [("#[derive(Clone)]", ""), ("#[derive(Debug, Clone)]", ""), ("#[cfg_attr(any(), derive(proc::A))]", ""), ("#[derive(proc::A)]", "derive"),
           ("#[derive(Debug, proc::B)]", "derive"), ("#[cfg_attr(all(), derive(proc::C))]", "derive")]
EXPORTS = [("#[macro_export]", "export"), ("#[macro_export(local_inner_macros)]", "export"), ("#[cfg_attr(all(), macro_export)]", "export"),
           ("#[cfg_attr(any(), macro_export)]", "word")]
KINDS = ["fn", "fn", "struct", "struct", "enum", "trait", "union", "type", "const", "static", "macro_rules", "macro_rules", "extern crate", "extern", "call", "impl", "body"]


class Draw:
    """Draws a crate."""

    def __init__(self, seed):
        self.r = random.Random(seed)
        r = self.r
        self.edition = r.choice(["2015", "2018", "2021", "2021", "2024"])
        is_package = r.random() < 0.4
        self.top = ["src"] if is_package else []
        self.files, self.paths, self.lists = {}, [["crate"]], []
        self.veils = r.choice([0, 0, 0.4, 1])
        self.named = NAMES + [r.choice(["d", "std", "std", "core", "Option", "u8"])] * 2
        self.root = "/".join([*self.top, "lib.rs"])
        self.files[self.root] = None
        inner = r.choice([[], [], [], [("#![allow(dead_code)]", "")], [("#![allow(future_incompatible)]", "allows")]] + [[("#![cfg(any())]", "off")]] * (r.random() < 0.05))
        items = self.items(0, self.top, self.top, ["crate"])
        self.files[self.root] = inner, items
        for found, depth in self.lists:
            self.import_into(found, depth)
        items.insert(0, Item("macro_rules", "make"))
        features = ["on", "off"] if is_package else None
        others = r.choice([[], [], ["c"], ["b"], None]) if is_package else None
        self.drawn = Drawn(self.edition, self.files, self.root, features, others, r.random() < 0.5 if others is None else "c" in others)

    def name(self):
        return self.r.choice(NAMES)

    def visibility(self, depth):
        words = ["", "", "pub ", "pub ", "pub ", "pub(crate) ", "pub(super) ", "pub(self) ", "pub(in self) ", "pub(in super) ", "pub(in crate) "]
        words += [f"pub(in crate::{self.name()}) ", "pub(in super::super) ", f"pub(in super::{self.name()}) ", f"pub(in {self.name()}) "] * (depth > 1)
        return self.r.choice(words if self.r.random() < 0.6 else ["", "pub "])

    def attributes(self, kind):
        r, found = self.r, []
        if kind == "macro_rules" and r.random() < 0.5:
            found.append(r.choice(EXPORTS))
        if kind in ("struct", "enum") and r.random() < 0.25:
            found.append(r.choice(DERIVES if r.random() < self.veils else DERIVES[:3]))
        if kind == "struct" and r.random() < 0.1:
            found.append(("#[non_exhaustive]", "limited"))
        if kind == "fn" and r.random() < 0.06:
            found.append(("#[test]", "test"))
        if r.random() < 0.1:
            found.append(r.choice(NO_EFFECT))
        if r.random() < 0.07:
            found.append(r.choice(OFF if r.random() < self.veils else OFF[:4]))
        if r.random() < 0.05 * self.veils:
            found.append(r.choice(FOREIGN))
        r.shuffle(found)
        return found

    def items(self, depth, names, paths, above, is_hidden=False):
        """The items of a module, whose files are looked for in one folder and its paths in another."""
        r, found = self.r, []
        for _ in range(r.randrange(0, 4)):
            found.append(self.item(depth, is_hidden))
        for _ in range(r.choice([0, 0, 1, 1, 2]) if 0 < depth < 3 and not is_hidden else 3 * (depth == 0)):
            found.append(self.module(depth, names, paths, above))
        r.shuffle(found)
        found = self.settled(self.without_twins(found), is_hidden)
        self.lists.append((found, depth))
        return found

    def import_into(self, items, depth):
        """Puts imports among items, when all modules are known."""
        for _ in range(self.r.choice([0, 1, 1, 2, 2, 3])):
            attributes = [pair for pair in self.attributes("use") if pair[1] != "foreign" or self.r.random() < 0.5]
            items.insert(self.r.randrange(len(items) + 1), Item("use", "", self.visibility(depth), attributes, self.tree()))
        self.rename(items)

    def without_twins(self, items):
        """Nearly always a name is declared once in a namespace, as rustc wants it."""
        seen, kept = set(), []
        for it in items:
            keys = {(space, it.name) for space in spaces_of(it)}
            if not keys & seen or it.has("off") or self.r.random() < 0.03:
                kept.append(it)
                seen |= keys
        return kept

    def rename(self, items):
        """Nearly always an import that binds a name that its module has already is renamed."""
        taken = {inner.name for it in items for inner in (it.more if it.kind == "extern" else [it])}
        for it in items:
            for leaf, words, _ in leaves_of(it.more, []) if it.kind == "use" else []:
                bound = leaf.alias or words[-1] if leaf.kind == "name" and words else "_"
                if bound in taken - {"_"} and self.r.random() < 0.9:
                    bound = leaf.alias = self.r.choice([name for name in [*NAMES, "d", "e"] if name not in taken] or ["_"])
                taken.add(bound)

    def settled(self, items, is_hidden):
        """What is unseen declares nothing that the module declares for sure."""
        sure = {it.name for it in items if it.kind not in ("use", "call")} | {inner.name for it in items if it.kind == "extern" for inner in it.more}
        for it in items:
            if it.kind == "call":
                it.more = [inner for inner in it.more if inner.name not in sure]
            it.attributes = [(text, effect) for text, effect in it.attributes if effect != "derive" or text[-3].lower() not in sure]
        return [it for it in items if not is_hidden or not it.has("foreign")]

    def item(self, depth, is_hidden):
        r = self.r
        kind = r.choice(KINDS)
        if kind == "call" and (is_hidden or r.random() > self.veils):
            kind = "fn"
        if kind == "body" and r.random() < 0.7:
            kind = "struct"
        it = Item(kind, self.name(), self.visibility(depth), self.attributes(kind))
        if kind == "struct":
            it.more = r.choice([None, [], ["" if r.random() < 0.5 else "pub "], ["pub ", "field"], {}])
            if it.more:
                words = ["", "pub ", "pub(crate) ", *["pub(super) "] * (depth > 0)]
                it.visibility, it.more = r.choice(words), [r.choice(words) if word == "field" else word for word in it.more]
        elif kind == "extern crate":
            it.attributes += [("#[macro_use]", "")] * (r.random() < 0.1)
            it.more, it.name = r.choice(["core", "std", "alloc", "self"]), r.choice([self.name(), self.name(), "_"])
        elif kind == "extern":
            it.name = ""
            it.more = [Item(r.choice(["fn", "static"]), self.name(), self.visibility(depth), self.attributes("")) for _ in range(r.randrange(3))]
            it.more = self.without_twins(it.more)
            if not is_hidden and r.random() < 0.2 * self.veils:
                it.more.append(Item("call", more=[]))
        elif kind == "call":
            it.name, it.visibility = "", ""
            it.more = self.items(3, None, None, ["crate"], is_hidden=True)
            it.attributes = [pair for pair in it.attributes if pair[1] in ("off", "lost", "feature")]
        elif kind in ("impl", "macro_rules"):
            it.visibility = ""
            it.name = it.name if kind == "macro_rules" else ""
        elif kind == "body":
            it.more = r.choice(["mod b {}", "#[macro_export] macro_rules! a { () => {} }", "use crate::none;", ""])
        return it

    def module(self, depth, names, paths, above):
        r = self.r
        it = Item("mod", self.name(), "pub " if r.random() < 0.7 else self.visibility(depth), self.attributes("mod"))
        here = [*above, it.name]
        self.paths.append(here)
        kind = r.choice(["inline", "inline", "inline", "file", "file", "mod.rs", "path", "none" if self.veils else "file", "two" if self.veils == 1 else "inline"])
        inside = [*names, it.name]
        if kind == "inline":
            it.more = self.items(depth + 1, inside, inside, here)
            it.attributes += [("#[macro_use]", "")] * (r.random() < 0.1)
            return it
        it.attributes = [pair for pair in it.attributes if pair[1] != "foreign"]
        if kind == "path" and paths == self.top:
            it.attributes.append(('#[path = "s.rs"]', "path"))
            self.file([*self.top, "s.rs"], lambda: self.items(3, None, None, here))
        if kind in ("file", "two"):
            self.file([*names, f"{it.name}.rs"], lambda: self.items(depth + 1, inside, names, here))
        if kind in ("mod.rs", "two"):
            self.file([*inside, "mod.rs"], lambda: self.items(depth + 1, inside, inside, here))
        return it

    def file(self, path, items):
        path = "/".join(path)
        if path not in self.files:
            self.files[path] = None
            inner = self.r.choice([[]] * 18 + [[("#![cfg(any())]", "off")], [("#![cfg(foo)]", "lost")] if self.veils else []])
            self.files[path] = inner, items()

    # ---- imports
    def start(self):
        starts = [["crate"]] * 6 + [["self"]] * 3 + [["super"]] * 3 + [["super", "super"], ["self", "super"], ["::"]] + [[]] * 8
        return self.r.choice(starts)

    def path(self):
        r = self.r
        if r.random() < 0.6:
            return [*r.choice(self.paths), *([self.name()] if r.random() < 0.8 else [])]
        return [*self.start(), *(r.choice(self.named if r.random() < 0.3 else NAMES) for _ in range(r.choice([1, 1, 2, 2, 2, 3])))]

    def alias(self):
        return self.r.choice(["", "", "", self.name(), self.name(), "_"])

    def tree(self):
        r, kind = self.r, self.r.random()
        if kind < 0.002:
            return Tree(["::"], "list", trees=[Tree(["a"], "name")])
        if kind < 0.02:
            return r.choice([Tree([], "*"), Tree(["::"], "*"), Tree(["a"], "list", trees=[Tree(["self", "b"], "name")]), Tree(["b"], "list", trees=[Tree(["crate", "a"], "name")]),
                             Tree(["super"], "list", trees=[Tree(["super", "a"], "name")]), Tree([], "list", trees=[Tree(self.path(), "name"), Tree(self.path(), "*")])])
        if kind < 0.07:
            return Tree(r.choice([["crate"], ["super"], ["self"], ["super", "super"]]), "name", alias=self.alias())
        if kind < 0.32:
            return Tree(r.choice([self.path(), *[self.r.choice(self.paths)] * 4, ["super"], ["super"]]), "*")
        if kind < 0.47:
            return Tree(r.choice([self.path(), r.choice(self.paths), ["crate"], ["super"]]), "list", trees=[self.branch(1) for _ in range(r.randrange(4))])
        return Tree(self.path(), "name", alias=self.alias())

    def branch(self, depth):
        r, kind = self.r, self.r.random()
        if kind < 0.2:
            return Tree(["self"], "name", alias=self.alias())
        if kind < 0.27:
            return Tree([], "*")
        words = [self.name() for _ in range(r.choice([1, 1, 2]))]
        if kind < 0.35 and depth < 2:
            return Tree(words, "list", trees=[self.branch(depth + 1) for _ in range(r.randrange(3))])
        return Tree(words, "*" if kind < 0.42 else "name", alias="" if kind < 0.42 else self.alias())


# ---- its text


class Writer:
    """Writes a file, and where the leaves of its uses stand: for each the spans of the words that lead to it."""

    def __init__(self, gone=()):
        self.text, self.spans, self.gone = "", {}, gone

    def place(self):
        return self.text.count("\n") + 1, len(self.text) - self.text.rfind("\n")

    def items(self, items, indent=""):
        for it in items:
            self.text += indent
            self.item(it, indent)
            self.text += "\n"

    def item(self, it, indent):
        self.text += "".join(text + " " for text, _ in it.attributes)
        words = {"fn": "fn {} () {{}}", "enum": "enum {} {{ a, b {{ c: u8 }} }}", "trait": "trait {} {{}}", "union": "union {} {{ a: u8 }}", "type": "type {} = u8;",
                 "const": "const {}: u8 = 1;", "static": "static {}: u8 = 1;", "impl": "const _: () = {{ struct S; impl S {{ pub fn a() {{}} }} }};"}
        if it.kind == "macro_rules":
            made = "($($t:tt)*) => { $($t)* }" if it.name == "make" else "() => {}"
            self.text += f"macro_rules! {it.name} {{ {made} }}"
        elif it.kind == "body":
            self.text += f"{it.visibility}fn {it.name}() {{ {it.more} }}"
        elif it.kind == "extern crate":
            self.text += f"{it.visibility}extern crate {it.more} as {it.name};"
        elif it.kind == "struct":
            self.struct(it)
        elif it.kind == "call":
            self.braced("make! {", it.more, indent)
        elif it.kind == "extern":
            self.foreign(it, indent)
        elif it.kind == "mod":
            self.text += f"{it.visibility}mod {it.name}"
            self.braced(" {", it.more, indent) if it.more is not None else self.end()
        elif it.kind == "use":
            self.text += f"{it.visibility}use "
            self.tree(it.more, [])
            self.end()
        else:
            self.text += it.visibility + words[it.kind].format(it.name)

    def end(self):
        self.text += ";"

    def braced(self, opened, items, indent):
        self.text += opened + "\n"
        self.items(items, indent + "    ")
        self.text += indent + "}"

    def struct(self, it):
        self.text += f"{it.visibility}struct {it.name}"
        if it.more is None:
            self.text += ";"
        elif isinstance(it.more, dict):
            self.text += " { a: u8 }"
        else:
            self.text += "(" + ", ".join(visibility + "u8" for visibility in it.more) + ");"

    def foreign(self, it, indent):
        self.text += 'unsafe extern "C" {\n'
        forms = {"fn": "fn {}();", "static": "static {}: u8;", "call": "make!();"}
        for inner in it.more:
            self.text += f"{indent}    " + "".join(text + " " for text, _ in inner.attributes) + inner.visibility + forms[inner.kind].format(inner.name) + "\n"
        self.text += indent + "}"

    def tree(self, tree, around):
        begin = self.place()
        is_global = tree.words[:1] == ["::"]
        self.text += ("::" if is_global else "") + "::".join(tree.words[is_global:])
        if tree.kind == "list":
            self.text += "{" if not tree.words or tree.words == ["::"] else "::{"
            around = [*around, (begin, self.place())]
            kept = [it for it in tree.trees if it not in self.gone]
            for at, it in enumerate(kept):
                self.text += ", " * (at > 0)
                self.tree(it, around)
            self.text += "}"
            return
        if tree.kind == "*":
            self.text += "::*" if tree.words and not (is_global and len(tree.words) == 1) else "*"
        if tree.alias:
            self.text += f" as {tree.alias}"
        self.spans[tree] = [*around, (begin, self.place())]


def left(items, gone):
    """The items without these leaves of use trees."""
    found = []
    for it in items:
        if it.kind == "use" and it.more in gone:
            continue
        found.append(Item(it.kind, it.name, it.visibility, it.attributes, left(it.more, gone)) if it.kind == "mod" and it.more is not None else it)
    return found


def written(drawn, gone=()):
    """The text of each file, and the spans of the leaves in each."""
    texts, spans = {}, {}
    for path, (inner, items) in drawn.files.items():
        writer = Writer(gone)
        writer.text = "".join(text + "\n" for text, _ in inner)
        writer.items(left(items, gone))
        texts[path], spans[path] = writer.text, writer.spans
    if drawn.features is not None:
        texts["Cargo.toml"] = manifest_of(drawn)
    return texts, spans


def manifest_of(drawn):
    lines = ["[package]", 'name = "our-own"', 'version = "0.1.0"', f'edition = "{drawn.edition}"', "[features]", 'default = ["on"]', "on = []", "off = []", "[dependencies]"]
    if drawn.dependencies is None:
        lines.append('c = "1"')
    else:
        lines += [f'{name} = {{ package = "{name}", version = "1" }}' for name in drawn.dependencies]
    return "\n".join(lines) + "\n"


# ---- a crate as plain data: its modules by numbers, the root is 0; a visibility is None (everybody) or a module with all in it
UNSEEN, GLOB, NAMELESS, UNDERSCORE = ("unseen",), "*", "nameless", "_"
OURS = {"std", "core", "alloc", "proc_macro", "test", "Option", "u8", "rustfmt", "clippy", "diagnostic"}


@dataclass(eq=False)
class Import:
    parent: int
    start: tuple
    names: list
    binding: str
    is_of_types: bool
    visibility: object
    leaf: Tree
    file: str


def spaces_of(it):
    """The namespaces in which an item declares its name."""
    if it.kind in ("fn", "const", "static", "body"):
        return ["values"]
    if it.kind in ("enum", "trait", "union", "type", "mod"):
        return ["types"]
    if it.kind == "struct":
        return ["types"] if isinstance(it.more, dict) else ["types", "values"]
    if it.kind == "extern crate":
        return ["types"] if it.name != "_" else []
    return []


def path_of(words):
    """Where the words of a path begin, and its names; nothing if they mean no path."""
    if not words or words == ["::"]:
        return None
    at, start = 1, {"crate": ("crate",), "::": ("abs",), "self": ("super", 0), "super": ("super", 1)}.get(words[0])
    if start is None:
        at, start = 0, ("plain",)
    while start[0] == "super" and words[at:at + 1] == ["super"]:
        at, start = at + 1, ("super", start[1] + 1)
    names = words[at:]
    return None if {"crate", "self", "super", "::"} & set(names) else (start, names)


class Crate:
    """A crate as plain data, gathered from what was drawn."""

    def __init__(self, drawn):
        self.drawn, self.is_2015 = drawn, drawn.edition == "2015"
        self.parents, self.module_names = [None], [None]
        self.declared, self.imports, self.veils, self.macros, self.crates = set(), [], set(), set(), set()
        self.is_root_open, self.read = False, {drawn.root}
        if self.is_2015:
            self.declared |= {(0, "types", name, UNSEEN, 0, False) for name in ("std", "core")}
        if any(effect == "allows" for inner, _ in drawn.files.values() for _, effect in inner):
            self.veil_macros()
        top = drawn.root.split("/")[:-1]
        self.file(0, drawn.root, top, top, [])
        known = drawn.dependencies
        self.others = None if known is None or self.is_root_open else OURS | set(known) | {"our_own"} | self.crates
        self.hides = {(m, space, name) for m, space, name, _, _, is_sure in self.declared if is_sure}

    # who sees what
    def is_within(self, m, other):
        while m is not None and m != other:
            m = self.parents[m]
        return m is not None

    def sees(self, m, visibility):
        return visibility is None or self.is_within(m, visibility)

    def smaller(self, v, w):
        return w if v is None else v if w is None or self.is_within(v, w) else w

    def above(self, m, count):
        for _ in range(count):
            m = None if m is None else self.parents[m]
        return m

    def path(self, m):
        return "crate" if m == 0 else f"{self.path(self.parents[m])}::{self.module_names[m]}"

    def visibility(self, at, text):
        """What a visibility means in a module; one in a path that leads to no module around is everybody's."""
        words = text.strip().removeprefix("pub").strip("()").removeprefix("in ").strip()
        if not words:
            return None if text else at
        start, names = path_of(words.split("::"))
        m = {"crate": 0, "plain": 0 if self.is_2015 else None, "super": self.above(at, start[-1]) if start[0] == "super" else None}[start[0]]
        around = [self.above(at, k) for k in range(len(self.parents))]
        for name in names:
            m = next((it for it in around if it is not None and m is not None and self.parents[it] == m and self.module_names[it] == name), None)
        return m if m in around else None

    # what places add
    def veil(self, m, visibility=None):
        self.veils |= {(m, space, visibility) for space in SPACES}
        self.is_root_open |= m == 0

    def veil_macros(self):
        self.veils.add((0, "macros", None))

    def effects(self, attributes):
        """What attributes do: up to the first false cfg, and whether that may hide more than it says."""
        found = []
        for _, effect in attributes:
            if effect == "feature":
                effect = "off" if self.drawn.features is not None else "lost"
            found.append(effect)
            if effect in ("off", "lost"):
                break
        return found

    def file(self, m, path, names, paths, stack):
        inner, items = self.drawn.files[path]
        if self.is_hiding(path, items):
            self.veil_macros()
        effects = self.effects(inner)
        if "lost" in effects:
            self.veil(m)
            self.veil_macros()
        if not {"off", "lost"} & set(effects):
            self.items(m, items, True, names, paths, [*stack, path])

    def is_hiding(self, path, items):
        """The text of a file has the word `macro_export` more often than its tree, or a module that its tree lacks."""
        def exports(it):
            inner = it.more if it.kind in ("mod", "extern") and it.more else []
            return self.effects(it.attributes).count("export") + sum(map(exports, inner))

        def all_of(items):
            for it in items:
                yield it
                if it.kind == "mod" and it.more:
                    yield from all_of(it.more)
        writer = Writer()
        writer.items(items)
        hidden = [it for it in all_of(items) if it.kind == "body" and "mod " in it.more or it.kind == "call" and any(inner.kind == "mod" for inner in all_of(it.more))
                  or it.kind == "call" and any(inner.kind == "body" and "mod " in inner.more for inner in all_of(it.more))]
        return bool(hidden) or writer.text.count("macro_export") > sum(map(exports, items))

    def items(self, m, items, is_certain, names, paths, stack):
        for it in items:
            effects = self.effects(it.attributes)
            if "lost" in effects:
                self.veil(m)
                self.veil_macros()
            if {"off", "lost"} & set(effects):
                continue
            if {"foreign", "derive"} & set(effects):
                self.veil(m)
            self.item(m, it, effects, is_certain and "foreign" not in effects, names, paths, stack)

    def declare(self, m, space, it, thing, visibility, is_sure):
        self.declared.add((m, space, it.name, thing, visibility, is_sure))

    def item(self, m, it, effects, is_certain, names, paths, stack):
        is_sure, seen = is_certain and "test" not in effects, self.visibility(m, it.visibility)
        thing = ("scope" if it.kind in ("enum", "trait") else "item", id(it), m, it.name)
        if it.kind == "call":
            self.veil(m)
        elif it.kind == "macro_rules":
            self.macros.add((it.name, thing))
            if "export" in effects:
                self.declared.add((0, "macros", it.name, thing, None, is_sure))
        elif it.kind == "extern":
            self.items(m, it.more, is_certain, names, paths, stack)
        elif it.kind == "mod":
            self.module(m, it, is_sure, seen, is_certain, names, paths, stack)
        elif it.kind == "use":
            self.use(m, it.more, seen, is_certain, stack[-1])
        elif it.kind == "extern crate":
            if it.name != "_":
                self.declare(m, "types", it, UNSEEN, seen, is_sure)
                self.crates |= {it.name} if m == 0 else set()
        else:
            for space in spaces_of(it):
                is_constructor = it.kind == "struct" and space == "values"
                self.declare(m, space, it, *(self.constructor(m, it, thing, seen) if is_constructor else (thing, seen)), is_sure)

    def constructor(self, m, it, thing, seen):
        """What it stands for, and for whom: a cfg may take away a field that narrows it, which no tree tells."""
        own = self.smaller(seen, 0) if it.has("limited") else seen
        least = own
        for visibility in it.more or []:
            least = self.smaller(least, self.visibility(m, visibility))
        is_narrower = least is not None and (own is None or not self.is_within(own, least))
        return (UNSEEN, own) if is_narrower else (thing, least)

    def found(self, it, names, paths):
        """The file of a `mod`, and where the files of its modules are looked for: nothing if there is none, or two."""
        inside = [*names, it.name]
        both = [("/".join([*names, f"{it.name}.rs"]), inside, names), ("/".join([*inside, "mod.rs"]), inside, inside)]
        there = [("/".join([*paths, "s.rs"]), paths, paths)] if it.has("path") else [it for it in both if it[0] in self.drawn.files]
        self.read |= {path for path, *_ in there}
        return there[0] if len(there) == 1 else None

    def module(self, m, it, is_sure, seen, is_certain, names, paths, stack):
        found = ("", [*(names or []), it.name], [*(names or []), it.name]) if it.more is not None else self.found(it, names, paths)
        is_off = found and found[0] and {"off", "lost"} & set(self.effects(self.drawn.files[found[0]][0]))
        if not found or found[0] in stack or is_off:
            self.declare(m, "types", it, UNSEEN, seen, False)
            self.veil_macros()
            return
        at = len(self.parents)
        self.parents.append(m)
        self.module_names.append(it.name)
        self.declare(m, "types", it, ("module", at), seen, is_sure)
        if not is_certain:
            self.veil(at)
        if found[0]:
            self.file(at, found[0], found[1], found[2], stack)
        else:
            self.items(at, it.more, is_certain, found[1], found[2], stack)

    def use(self, m, tree, seen, is_certain, file):
        if not is_certain:
            return
        for leaf, words, is_self in leaves_of(tree, []):
            path = path_of(words)
            if path is None or leaf.kind == "*" and words == ["::"]:
                self.veil(m, seen)
                continue
            start, names = path
            binding = GLOB if leaf.kind == "*" else leaf.alias or (names[-1] if names else NAMELESS)
            self.imports.append(Import(m, start, names, binding, is_self, seen, leaf, file))


def leaves_of(tree, before):
    """The leaves of a use tree, each with all its words, and whether it is `self` in a list."""
    if tree.kind == "list":
        for it in tree.trees:
            yield from leaves_of(it, before + tree.words)
    elif tree.words == ["self"] and before and tree.kind == "name":
        yield tree, before, True
    else:
        yield tree, before + tree.words, False


# ---- the rules, each of which only adds
class Facts:
    """What modules name, where paths stand after so many names, and what imports give: the least that the rules want."""

    def __init__(self, crate):
        self.crate, self.is_new = crate, True
        self.named = [set() for _ in crate.parents]
        self.stands = [set() for _ in crate.imports]
        self.gives = [set() for _ in crate.imports]
        for m, space, name, thing, visibility, _ in crate.declared:     # 1
            self.named[m].add((space, name, thing, visibility))
        for m, space, visibility in crate.veils:                        # 2
            self.named[m].add((space, None, UNSEEN, visibility))
        while self.is_new:
            self.is_new = False
            for i, it in enumerate(crate.imports):
                self.begin(i, it)
                self.go(i, it)
                self.bind(i, it)

    def add(self, facts, fact):
        if fact not in facts:
            facts.add(fact)
            self.is_new = True

    def start(self, it):
        """3: the module in which a path begins."""
        if it.start[0] == "super":
            return self.crate.above(it.parent, it.start[1])
        if it.start[0] == "crate" or self.crate.is_2015:
            return 0
        return it.parent if it.start[0] == "plain" else None

    def begin(self, i, it):
        start, crate = self.start(it), self.crate
        if start is not None:
            self.add(self.stands[i], (0, ("module", start)))
        if it.start[0] not in ("plain", "abs") or not it.names:
            return
        is_single, name = it.binding != GLOB and len(it.names) == 1, it.names[0]     # 4
        for space in SPACES if is_single else ("types",):
            if (start, space, name) in crate.hides:
                continue
            if is_single or crate.others is None or name in crate.others:
                self.read(i, it, 0, space, UNSEEN, None)
            if space == "macros" and it.start[0] == "plain":
                for macro, thing in crate.macros:
                    if macro == name:
                        self.read(i, it, 0, space, thing, 0)

    def read(self, i, it, k, space, thing, visibility):
        """The k-th name of a path stands for a thing: the path goes on there, or the import gives it."""
        if it.binding == GLOB or k + 1 < len(it.names):
            if space == "types":
                self.add(self.stands[i], (k + 1, thing))
        elif space == "types" or not it.is_of_types:
            self.add(self.gives[i], (space, thing, visibility))

    def go(self, i, it):
        for k, thing in list(self.stands[i]):
            if k < len(it.names):
                if thing[0] in ("unseen", "scope"):                     # 10
                    for space in SPACES:
                        self.read(i, it, k, space, UNSEEN, None)
                elif thing[0] == "module":
                    self.step(i, it, k, thing[1])
            elif it.binding == GLOB:
                self.spread(it, thing)
            else:                                                       # 6, of a path without names
                self.add(self.gives[i], ("types", thing, None))

    def step(self, i, it, k, m):
        """5 and 6: what is named so there and seen; a veil stands for each name but those that the module declares for sure."""
        wanted = it.names[k]
        for space, name, thing, visibility in list(self.named[m]):
            is_it = name == wanted or name is None and (m, space, wanted) not in self.crate.hides
            if is_it and self.crate.sees(it.parent, visibility):
                self.read(i, it, k, space, thing, visibility)

    def spread(self, it, thing):
        crate, into = self.crate, self.named[it.parent]
        if thing[0] in ("unseen", "scope"):                             # 9
            for space in SPACES:
                self.add(into, (space, None, UNSEEN, it.visibility))
        elif thing[0] == "module":                                      # 7
            for space, name, other, visibility in list(self.named[thing[1]]):
                if crate.sees(it.parent, visibility) and (it.parent, space, name) not in crate.hides:
                    self.add(into, (space, name, other, crate.smaller(visibility, it.visibility)))
            if thing[1] == 0:                                           # macros that calls export come with globs of the root
                self.add(into, ("macros", None, UNSEEN, it.visibility))

    def bind(self, i, it):
        if it.binding not in (GLOB, NAMELESS, UNDERSCORE):              # 8
            for space, thing, visibility in list(self.gives[i]):
                self.add(self.named[it.parent], (space, it.binding, thing, self.crate.smaller(visibility, it.visibility)))

    def verdict(self, i):
        it = self.crate.imports[i]
        if it.binding == NAMELESS:
            return "nameless"
        if it.binding == GLOB:
            things = {thing for k, thing in self.stands[i] if k == len(it.names) and thing[0] != "item"}
        else:
            things = {thing for _, thing, _ in self.gives[i]}
            is_narrow = all(thing != UNSEEN and self.is_less(visibility, it.visibility) for _, thing, visibility in self.gives[i])
        if not things:
            return "private" if self.is_private(i, it) else "unresolved"
        if it.binding != GLOB and is_narrow:
            return "too wide"
        return "unknown" if things == {UNSEEN} else "resolved"

    def is_private(self, i, it):
        """A name that is asked for stands there, for others."""
        for k, thing in self.stands[i]:
            if thing[0] == "module" and k < len(it.names):
                is_inner = it.binding == GLOB or k + 1 < len(it.names)
                wanted = ("types",) if is_inner or it.is_of_types else SPACES
                if any(space in wanted and name == it.names[k] and not self.crate.sees(it.parent, visibility) for space, name, _, visibility in self.named[thing[1]]):
                    return True
        return False

    def targets(self, i):
        """The paths of the modules and items that an import leads to."""
        it, crate = self.crate.imports[i], self.crate
        ends = [thing for k, thing in self.stands[i] if k == len(it.names) and thing[0] != "item"]
        things = ends if it.binding == GLOB else [thing for _, thing, _ in self.gives[i]]
        return {crate.path(thing[1]) if thing[0] == "module" else f"{crate.path(thing[2])}::{thing[3]}" for thing in things if thing != UNSEEN}

    def is_less(self, visibility, wanted):
        """Not all who see the second see the first."""
        return visibility is not None and (wanted is None or not self.crate.is_within(wanted, visibility))


TOLD = {"unresolved": "this import leads to nothing", "private": "this import names what it does not see", "too wide": "what this import names is seen by fewer than the import", "nameless": "this import has no name"}


def verdicts_of(drawn):
    """Each import of a crate, with what is said of it and what it leads to."""
    crate = Crate(drawn)
    facts = Facts(crate)
    if any("use ::{" in text for path, text in written(drawn)[0].items() if path in crate.read):    # a tree does not tell where such a path begins
        return [(it, "unknown", set()) for it in crate.imports]
    return [(it, facts.verdict(i), facts.targets(i)) for i, it in enumerate(crate.imports)]


# ---- the program
def told_by_program(program, drawn, folder):
    """The lines of the imports that it tells: file, line, column, words; and what else it says that no crate here should have."""
    ran = subprocess.run([program, "check", *arguments_of(drawn)], cwd=folder, capture_output=True, text=True, timeout=60, check=False)
    rows, others = collections.Counter(), ran.stderr.splitlines()
    for line in ran.stdout.splitlines():
        file, row, column, said = line.split(":", 3)
        if said[1:] in TOLD.values():
            rows[os.path.normpath(file), int(row), int(column), said[1:]] += 1
        elif " has no file: " not in said and " has two files: " not in said:
            others.append(line)
    return rows, others


def wanted_rows(verdicts, spans):
    rows = collections.Counter()
    for it, verdict, _ in verdicts:
        if verdict in TOLD:
            rows[it.file, *spans[it.file][it.leaf][-1][0], TOLD[verdict]] += 1
    return rows


def write(folder, texts):
    for path, text in texts.items():
        os.makedirs(os.path.dirname(f"{folder}/{path}"), exist_ok=True)
        with open(f"{folder}/{path}", "w", encoding="utf-8") as file:
            file.write(text)


def compare(program, resolves, drawn, verdicts, folder):
    """What is wrong with what the program tells, and if it resolves imports with each of them."""
    texts, spans = written(drawn)
    write(folder, texts)
    rows, others = told_by_program(program, drawn, folder)
    wanted = wanted_rows(verdicts, spans)
    wrong = [f"told too much: {it}" for it in rows - wanted] + [f"not told: {it}" for it in wanted - rows] + others
    return wrong + (compare_all(program, drawn, verdicts, spans, folder) if resolves else [])


def arguments_of(drawn):
    return ["--edition", drawn.edition, "--crate", "lib.rs"] if drawn.features is None else ["--crate", "."]


def compare_all(program, drawn, verdicts, spans, folder):
    """What is wrong with what `imports --resolve` says of each import, and with what each leads to."""
    ran = subprocess.run([program, "imports", "--resolve", "--json", *arguments_of(drawn)], cwd=folder, capture_output=True, text=True, timeout=60, check=False)
    rows = [json.loads(line) for line in ran.stdout.splitlines()]
    if not rows and "a use begins with ::{" in ran.stderr:
        return []
    found = collections.Counter((os.path.normpath(row["file"]), row["line"], row["column"], row["verdict"], " ".join(sorted({it["path"] for it in row["targets"]}))) for row in rows)
    wanted = collections.Counter((it.file, *spans[it.file][it.leaf][-1][0], verdict, " ".join(sorted(targets))) for it, verdict, targets in verdicts)
    return [f"resolved otherwise: {it}" for it in found - wanted] + [f"expected: {it}" for it in wanted - found] + ran.stderr.splitlines()


# ---- rustc
PROC = """extern crate proc_macro; use proc_macro::TokenStream;
#[proc_macro_attribute] pub fn keep(_: TokenStream, item: TokenStream) -> TokenStream { item }
#[proc_macro_attribute] pub fn drop(_: TokenStream, _: TokenStream) -> TokenStream { TokenStream::new() }
""" + "".join(f"""#[proc_macro_derive({name.upper()})] pub fn {name}(_: TokenStream) -> TokenStream {{
    "pub mod {name} {{ pub mod a {{}} pub fn b() {{}} pub struct c; }} pub fn {name}() {{}}".parse().unwrap() }}
""" for name in NAMES)
MORE = "pub mod a { pub fn a() {} pub mod b { pub struct c; } } pub fn b() {} pub mod c { pub fn a() {} } #[macro_export] macro_rules! a { () => {} }"


# What rustc says of an import that leads nowhere, that is too wide, or that has no name; and (E0659) where a name is another crate's, too, since an item
# with a derive is one that a macro made.
OF_IMPORTS = ("E0364", "E0365", "E0429", "E0430", "E0431", "E0432", "E0433", "E0603", "E0659", "imports need to be explicitly named", "cannot determine resolution")


class Rustc:
    """Has the names of crates resolved, and counts what rustc refuses."""

    def __init__(self, folder):
        found = subprocess.run(["rustc", "--print", "sysroot"], capture_output=True, text=True, check=True).stdout.strip()
        self.words, self.folder, self.counts = [f"{found}/bin/rustc", "--emit", "dep-info", "--error-format", "json", "--cap-lints", "warn"], folder, collections.Counter()
        write(folder, {"proc.rs": PROC, "more.rs": MORE})
        for kind, name, path in (("proc-macro", "proc", "proc.rs"), ("lib", "c", "more.rs")):
            words = [self.words[0], "--edition", "2021", "--crate-type", kind, "--crate-name", name, "--out-dir", folder, f"{folder}/{path}"]
            subprocess.run(words, check=True, capture_output=True)

    def errors(self, drawn, folder):
        """The code, the message and the place (file, begin, end) of each error."""
        words = [*self.words, "--edition", drawn.edition, "--crate-type", "lib", "--crate-name", "our_own", "-o", "our.d", "--extern", f"proc={self.folder}/libproc.so"]
        words += ["--cfg", 'feature="on"'] * (drawn.features is not None) + ["--extern", f"c={self.folder}/libc.rlib"] * drawn.has_more
        ran = subprocess.run([*words, drawn.root], cwd=folder, capture_output=True, text=True, timeout=60, check=False)
        for line in ran.stderr.splitlines():
            row = json.loads(line) if line.startswith("{") else {"level": "error", "code": None, "message": line, "spans": []}
            if not row["level"].startswith("error"):
                continue
            code = (row["code"] or {}).get("code") or row["message"][:60]
            for it in [it for it in row["spans"] if it["is_primary"]]:
                of_itself = ", a module into itself" * ("into itself" in (it["label"] or ""))
                yield code + of_itself, os.path.normpath(it["file_name"]), (it["line_start"], it["column_start"]), (it["line_end"], it["column_end"])
            if not row["spans"]:
                yield code, "", (0, 0), (0, 0)

    def refused(self, drawn, gone, leaves):
        """The leaves that rustc refuses where these are gone, with the codes; and all codes."""
        with tempfile.TemporaryDirectory(dir=self.folder) as folder:
            texts, spans = written(drawn, gone)
            write(folder, texts)
            errors = list(self.errors(drawn, folder))
        found = {}
        for leaf, file in leaves.items():
            for begin, end in spans[file].get(leaf, []):
                codes = [code for code, at, first, last in errors if at == file and begin < last and first < end and code.startswith(OF_IMPORTS)]
                found.setdefault(leaf, []).extend(codes)
        return {leaf: codes for leaf, codes in found.items() if codes}, [code for code, *_ in errors]

    def check(self, drawn, verdicts):
        """The leaves that are told and that rustc takes, also when those that it refuses are gone, since it says nothing of what follows these."""
        leaves = {it.leaf: it.file for it, *_ in verdicts}
        told = {it.leaf for it, verdict, _ in verdicts if verdict in TOLD}
        refused, codes = self.refused(drawn, set(), leaves)
        if any("compiler unexpectedly panicked" in code for code in codes):
            self.counts["crates at which rustc panics"] += 1
            return []
        self.counts["crates"] += 1
        self.counts["crates that rustc takes"] += not codes
        said = {it.leaf: verdict for it, verdict, _ in verdicts}
        for leaf in leaves.keys() - told:
            if leaf in refused:
                self.counts[f"not told, {said[leaf]}, refused: {sorted(refused[leaf])[0]}"] += 1
            else:
                self.counts[f"not told, {said[leaf]}, not refused"] += 1
        for leaf in told & refused.keys():
            self.counts[f"told, {said[leaf]}, refused: {sorted(refused[leaf])[0]}"] += 1
        rest, gone = told - refused.keys(), told & refused.keys()
        while rest:
            refused, _ = self.refused(drawn, gone, leaves)
            more = rest & refused.keys()
            self.counts["told, refused when what it follows is gone"] += len(more)
            others = refused.keys() - gone
            if not more and not others:
                break
            rest, gone = rest - more, gone | (more or others)
        self.counts["told and taken"] += len(rest)
        return [f"rustc takes what is told: {leaves[it]} {it.words} {it.kind} {it.alias}" for it in rest]


# ---- all of it
def main():
    parser = argparse.ArgumentParser(description=__doc__, formatter_class=argparse.RawDescriptionHelpFormatter)
    parser.add_argument("program")
    parser.add_argument("--count", type=int, default=300)
    parser.add_argument("--seed", type=int, default=1)
    parser.add_argument("--seconds", type=int, default=10**6)
    parser.add_argument("--rustc", action="store_true")
    parser.add_argument("--show", type=int)
    asked = parser.parse_args()
    program = asked.program if asked.program == "-" else os.path.abspath(asked.program)
    resolves = program != "-" and "--resolve" in subprocess.run([program, "imports", "--help"], capture_output=True, text=True, check=False).stdout
    numbers = [asked.show] if asked.show is not None else range(asked.count)
    failed, tried, counts, end = 0, 0, collections.Counter(), time.monotonic() + asked.seconds
    with tempfile.TemporaryDirectory() as top:
        rustc = Rustc(top) if asked.rustc else None
        for number in numbers:
            if time.monotonic() > end:
                break
            tried += 1
            drawn = Draw(f"{asked.seed} {number}").drawn
            verdicts = verdicts_of(drawn)
            counts.update(verdict for _, verdict, _ in verdicts)
            folder = f"{top}/crate"
            wrong = compare(program, resolves, drawn, verdicts, folder) if program != "-" else []
            wrong += rustc.check(drawn, verdicts) if rustc else []
            if asked.show is not None:
                show(drawn, verdicts)
            failed += bool(wrong)
            for it in wrong:
                print(f"crate {number} of seed {asked.seed}: {it}", flush=True)
            shutil.rmtree(folder, ignore_errors=True)
    print(", ".join(f"{count} {verdict}" for verdict, count in sorted(counts.items())))
    for what, count in sorted(rustc.counts.items() if rustc else []):
        print(f"    {what}: {count}")
    print(f"random_crates: {tried - failed} passed, {failed} failed")
    return failed > 0


def show(drawn, verdicts):
    texts, spans = written(drawn)
    for path, text in texts.items():
        print(f"// ---- {path}, edition {drawn.edition}\n{text}")
    for it, verdict, targets in verdicts:
        print(it.file, spans[it.file][it.leaf][-1][0], verdict, *sorted(targets))


if __name__ == "__main__":
    sys.exit(main())

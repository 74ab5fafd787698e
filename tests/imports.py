#!/usr/bin/env python3
"""Small crates, each with what is said of its imports by the Reference: imports.py PROGRAM [RUSTC]

An import is a leaf of a use tree or an `extern crate`. For each, in the order of the files and of their texts, a crate has:

- `resolved`, or `unknown` where it leads to nothing that is seen
- `unresolved`, `private`, `follows`, `too_wide` or `nameless`: it is told
- `absent`: nothing is said of it, since a cfg disables it, an attribute may rewrite it, or it has no form that imports have

Words with `/` between them are answers of which each is right; several words are those of a file that is several modules.
With a rustc, each crate is held against that too: it refuses what is told (a follower when what it follows is gone), nothing
else of what has a verdict, and takes a crate of which nothing is told, unless the crate says what else is wrong with it.
With `-` for the program only rustc is asked. Prints `imports: N passed, M failed`."""
import json
import os
import re
import subprocess
import sys
import tempfile

PROGRAM = sys.argv[1] if sys.argv[1] == "-" else os.path.abspath(sys.argv[1])
RUSTC = sys.argv[2] if len(sys.argv) > 2 else None
TOLD = {"unresolved", "private", "follows", "too_wide", "nameless"}
CASES = []


class Case:
    """A crate: what it shows, its files, the verdicts of its imports; what else rustc refuses (codes, or words of messages);
    the options of the program and the cfgs of rustc; and other crates by their names, of which some are proc macros. One that
    is not held is not shown to rustc, which says nothing of the imports of a module whose macro calls fail.
    Of one that is premised the program may tell what rustc takes: there another's macro has the name of one of the language's.
    If it has `leads`, these are what its imports lead to: the words and paths of modules and items, with commas between them."""

    def __init__(self, what, files, verdicts, edition, refused, options, cfgs, others, roots, is_held, is_premised, leads):
        self.what, self.verdicts, self.edition, self.refused, self.leads = what, verdicts, edition, refused, leads
        self.files = {"lib.rs": files} if isinstance(files, str) else files
        self.options, self.cfgs, self.others, self.is_held, self.is_premised = options, cfgs, others, is_held, is_premised
        self.is_package = "Cargo.toml" in self.files
        self.roots = roots or (["src/lib.rs"] if self.is_package else [next(iter(self.files))])


def crate(what, files, *verdicts, edition="2021", refused=(), options=(), cfgs=(), others=None, roots=(), is_held=True, is_premised=False, leads=None):
    refused = [refused] if isinstance(refused, str) else refused
    CASES.append(Case(what, files, list(verdicts), edition, list(refused), list(options), list(cfgs), others or {}, list(roots), is_held, is_premised, leads))


def package(what, text, lib, *verdicts, edition="2021", more=None, **rest):
    """A crate of a package: what its Cargo.toml has below the name and the edition, and its src/lib.rs."""
    manifest = f'[package]\nname = "our-own"\nversion = "0.1.0"\nedition = "{edition}"\n{text}'
    crate(what, {"src/lib.rs": lib, **(more or {}), "Cargo.toml": manifest}, *verdicts, edition=edition, **rest)


# ---- modules of each form
crate("an inline module", "mod a { pub fn f() {} } use crate::a::f; use crate::a::g;", "resolved", "unresolved")
crate("a module in a file", {"lib.rs": "mod a; use crate::a::f; use crate::a::g;", "a.rs": "pub fn f() {}"}, "resolved", "unresolved")
crate("a module in a mod.rs", {"lib.rs": "mod a; use crate::a::f;", "a/mod.rs": "pub fn f() {}"}, "resolved")
crate("a file in a file", {"lib.rs": "mod a; use crate::a::b::f;", "a.rs": "pub mod b;", "a/b.rs": "pub fn f() {} use super::b as c;"}, "resolved", "resolved")
crate("an inline module in a file", {"lib.rs": "mod a; use a::b::f;", "a.rs": "pub mod b { pub fn f() {} use super::super::a as c; }"}, "resolved", "resolved")
crate("a file in an inline module", {"lib.rs": "mod a { pub mod b; } use a::b::f;", "a/b.rs": "pub fn f() {}"}, "resolved")
crate("a file at a path", {"lib.rs": '#[path = "x/y.rs"] mod a; use a::f; use a::b::g;', "x/y.rs": "pub fn f() {} pub mod b;", "x/b.rs": "pub fn g() {}"},
      "resolved", "resolved")
crate("a path in an inline module", {"lib.rs": 'mod a { #[path = "x.rs"] pub mod b; } use a::b::f;', "a/x.rs": "pub fn f() {}", "x.rs": ""}, "resolved")
crate("a path in a file", {"lib.rs": "mod a; use a::b::f;", "a.rs": '#[path = "x.rs"] pub mod b;', "x.rs": "pub fn f() {}", "a/x.rs": ""}, "resolved")
crate("a path of an inline module", {"lib.rs": '#[path = "x"] mod a { pub mod b; } use a::b::f;', "x/b.rs": "pub fn f() {}", "a/b.rs": ""}, "resolved")
crate("a path in an inline module of a file",
      {"lib.rs": "mod a; use a::i::b::f;", "a.rs": 'pub mod i { #[path = "x.rs"] pub mod b; }', "a/i/x.rs": "pub fn f() {}", "x.rs": ""}, "resolved")
crate("a path that a cfg gives", {"lib.rs": '#[cfg_attr(all(), path = "x.rs")] mod a; use a::f;', "x.rs": "pub fn f() {}", "a.rs": ""}, "resolved")
crate("one file as two modules",
      {"lib.rs": '#[path = "x.rs"] mod a; #[path = "x.rs"] mod b; mod c { pub fn f() {} }', "x.rs": "use super::c::f; use super::d;"},
      "resolved resolved", "unresolved unresolved")
crate("what is right in one of two modules",
      {"lib.rs": '#[path = "x.rs"] mod a; mod m { #[path = "../x.rs"] mod b; fn f() {} }', "x.rs": "use super::f;", "m/none": ""},
      "unresolved resolved")
crate("no file", {"lib.rs": "mod a; use crate::a::f; use crate::b::f;"}, "unknown", "unresolved", refused="E0583")
crate("no file in a file", {"lib.rs": "mod a; use crate::a::b::f; use crate::a::c::f;", "a.rs": "pub mod b;"}, "unknown", "unresolved", refused="E0583")
crate("two files", {"lib.rs": "mod a; use crate::a::f; use crate::b::f;", "a.rs": "", "a/mod.rs": ""}, "unknown", "unresolved", refused="E0761")
crate("a module that is a file it stands in", {"lib.rs": "mod a; use crate::a::b::f;", "a.rs": '#[path = "lib.rs"] pub mod b;'}, "unknown",
      refused="circular modules")
crate("what a file without its file exports", {"lib.rs": "mod a; mod b { use crate::made; }"}, "unknown", refused=["E0583", "E0432"])
crate("a raw name", {"lib.rs": "mod r#type; use crate::r#type::f; mod r#a { pub fn g() {} } use crate::a::r#g;", "type.rs": "pub fn f() {}"},
      "resolved", "resolved")
crate("an import in a file", {"lib.rs": "mod a; fn f() {}", "a.rs": "use super::f;\nuse super::g;\nuse crate::f as h;\n"}, "resolved", "unresolved", "resolved")
crate("modules written behind their imports", "use a::b::f; mod a { pub use self::c as b; pub mod c { pub fn f() {} } }", "resolved", "resolved")
crate("modules of one name under cfgs", "#[cfg(all())] mod a { pub fn f() {} } #[cfg(any())] mod a { pub fn g() {} } use a::f; use a::g;", "resolved",
      "unresolved")

# ---- where paths begin
crate("crate", "fn f() {} mod a { use crate::f; use crate::g; }", "resolved", "unresolved")
crate("self", "mod a { fn f() {} use self::f as g; use self::h; }", "resolved", "unresolved")
crate("super", "fn f() {} mod a { use super::f; use super::g; }", "resolved", "unresolved")
crate("words that are keywords in some places", "fn union() {} mod auto { pub fn default() {} pub mod macro_rules {} pub mod raw { pub fn safe() "
      "{} } } use auto::{default, macro_rules, raw::safe, x}; mod c { use super::union; }", *["resolved"] * 3, "unresolved", "resolved")
crate("keywords since 2018", "mod async { pub fn dyn() {} pub mod try {} } use async::dyn; use async::{try, await};", "resolved", "resolved",
      "unresolved", edition="2015")
crate("a crate behind a double colon", "use ::crate::f; fn f() {}", "absent", refused="E0433")
crate("several supers", "fn f() {} mod a { mod b { mod c { use super::super::super::f; use self::super::super::super::f as g; use super::super::f as h; } } }",
      "resolved", "resolved", "unresolved")
crate("a super above the root", "fn f() {} mod a { use super::super::f; } use super::f as g;", "unresolved", "unresolved")
crate("a plain path from its own module", "mod a { pub mod b { pub fn f() {} } use b::f; use b::g; }", "resolved", "unresolved")
crate("a plain path finds no names of modules around", "mod b { pub fn f() {} } mod a { use b::f; }", "unknown", refused="E0432")
crate("a plain path finds the imports of its module", "mod a { pub mod b { pub fn f() {} } } use a::b; use b::f; use self::b::g; use b::h;",
      "resolved", "resolved", "unresolved", "unknown", refused="E0432")
crate("a plain path finds the names of globs", "mod a { pub mod b { pub fn f() {} } } use a::*; use b::f; use self::b::g; use b::h;", "resolved",
      "resolved", "unresolved", "unknown", refused="E0432")
crate("a plain name", "mod m { mod a {} use a as b; } fn f() {} use f as g;", "resolved", "resolved")
crate("a double colon is another crate", "mod a { pub fn f() {} } use ::a::f; use ::std::fmt;", "unknown", "unknown", refused="E0432")
crate("a double colon in front of a list", "mod core {} mod a { pub mod b {} } use ::{core::fmt, std::{mem, rc::Rc}}; use {::core::cell, self::a::b}; use ::{self::a as c};",
      *["unknown"] * 4, "resolved", "absent", refused="E0433")
crate("and in 2015", "mod c { mod a {} use ::{a::b}; } mod d { use ::{a::{self, z}}; } mod a { pub mod b {} }", "resolved", "resolved", "unresolved/unknown", edition="2015")
crate("in 2018", "mod a { pub fn f() {} } use a::f; mod b { use a::f; }", "resolved", "unknown", edition="2018", refused="E0432")
crate("in 2024", "mod a { pub fn f() {} } use a::f; mod b { use super::f; use super::a::g; }", "resolved", "resolved", "unresolved", edition="2024")
crate("in 2015 a plain path begins at the root", "mod a { pub fn f() {} } mod b { use a::f; use a::g; mod c { use a::f; } }", "resolved",
      "unresolved", "resolved", edition="2015")
crate("and a double colon", "mod a { pub fn f() {} } mod b { use ::a::f; use ::a::g; }", "resolved", "unresolved", edition="2015")
crate("and not in the own module", "mod b { mod a { pub fn f() {} } use a::f; use self::a::f as g; }", "unknown", "resolved", edition="2015", refused="E0432")
crate("and a plain name", "fn f() {} mod a { use f; use f as g; }", "resolved", "resolved", edition="2015")
crate("crate, self and super in 2015", "fn f() {} mod a { use crate::f; use super::f as g; use self::f as h; use super::z; }", "resolved", "resolved",
      "resolved", "unresolved", edition="2015")
crate("in 2015 the root has std", "mod a { use std::fmt; use ::std::mem; use crate::std::rc; use super::std::cell; } use self::std::vec;",
      *["unknown"] * 5, edition="2015")
crate("in 2015 a glob of the root brings std", "mod a { use super::*; use self::std::fmt; } mod b { use a::std; }",
      "resolved", "unknown", "private/unresolved", edition="2015")
crate("in 2015 without std it has core", "#![no_std] mod a { use core::fmt; use crate::core::mem; }", "unknown", "unknown", edition="2015")
crate("in 2018 the root has none", "mod a { use crate::std::fmt; }", "unresolved", edition="2018")

# ---- forms of use trees
crate("a list", "mod a { pub fn f() {} pub fn g() {} } use crate::a::{f, g, h};", "resolved", "resolved", "unresolved")
crate("a nested list", "mod a { pub fn f() {} pub mod b { pub fn g() {} pub mod c { pub fn h() {} } } } use crate::{a::{f, b::{g, c::{h, i}, j}}, k};",
      "resolved", "resolved", "resolved", "unresolved", "unresolved", "unresolved")
crate("a list on lines",
      "mod a {\n    pub fn f() {}\n    pub fn g() {}\n}\nuse crate::{\n    a::{\n        f,\n        h, // none\n        g,\n    },\n    z,\n};\n",
      "resolved", "unresolved", "resolved", "unresolved")
crate("an empty list", "mod a {} use crate::a::{}; use crate::{}; use {};")
crate("a list without a path", "mod a { pub fn f() {} } use {crate::a::f, self::a::f as g, crate::b};", "resolved", "resolved", "unresolved")
crate("a list behind super", "mod a { pub fn f() {} } mod b { use super::{a::{self, f}, b as c, z}; }", "resolved", "resolved", "resolved", "unresolved")
crate("a super in a list behind super", "mod z { mod y { use super::{super::z::y as q, super::x}; } }", "resolved", "unresolved")
crate("a wrong name in front of a list", "mod a {} use crate::a::b::{c, d::e, *};", "unresolved", "unresolved", "unresolved")
crate("self in a list", "mod a { pub mod b { pub fn f() {} } } use crate::a::b::{self, f}; use b::f as g;", "resolved", "resolved", "resolved")
crate("self in a list is of types", "mod a { pub fn f() {} pub mod g {} pub fn g() {} } use crate::a::f::{self}; use crate::a::g::{self};",
      "unresolved", "resolved")
crate("self in a list, renamed", "mod a { pub fn f() {} } use crate::a::{self as b}; use b::f; use self::b::g;", "resolved", "resolved", "unresolved")
crate("self of a struct, an enum and a trait",
      "mod a { pub struct S; pub enum E { A } pub trait T {} } use a::S::{self}; use a::E::{self, A}; use a::T::{self};", "resolved", "resolved",
      "unknown", "resolved")
crate("a renaming", "mod a { pub fn f() {} } use crate::a::f as g; mod b { use crate::g; use crate::f; }", "resolved", "resolved", "unresolved")
crate("an underscore binds no name", "mod a { pub trait T {} } use a::T as _; mod b { use crate::T; }", "resolved", "unresolved")
crate("an underscore of what is not there", "mod a {} use a::T as _;", "unresolved")
crate("two underscores", "mod a { pub trait T {} pub trait U {} } use a::{T as _, U as _};", "resolved", "resolved")
crate("the crate renamed", "mod a { pub fn f() {} use crate as c; use self::c::a::f as g; use self::c::z; }", "resolved", "resolved", "unresolved")
crate("super and self renamed", "fn f() {} mod a { use super as p; use self as s; use p::f; use s::p as q; use self::s::z; }", "resolved", "resolved",
      "resolved", "resolved", "unresolved")
crate("renamed in lists", "mod a { use crate::{self as c}; use super::{self as p}; use {self as s}; use self::{self as t}; }", *["resolved"] * 4)
crate("super of super renamed", "mod a { mod b { use super::super as r; use super::super::{self as q}; use r::a as c; } }", *["resolved"] * 3)
crate("the crate as an underscore", "use crate as _;", "resolved")
crate("a self behind a name", "mod a { pub mod b { pub fn f() {} } } use a::{self::b}; use a::b::f; use crate::none::x; use self::a::c;", "absent",
      "resolved", "unknown", "unresolved", refused=["E0433", "E0432"])
crate("a self with a star behind a name", "mod a { pub fn f() {} } use a::{self::*};", "absent/resolved", refused="E0433")
crate("a super behind a name", "mod a {} use crate::a::super::a as c; use a as d;", "absent", "resolved", refused="E0433")
crate("such a leaf may be of any name", "mod a { pub mod b {} } use a::{self::b}; mod c { use crate::b; use crate::d; }", "absent", "unknown",
      "unknown", refused=["E0433", "E0432"])
crate("a star alone", "use *; mod a { use crate::x; }", "absent", "unknown", refused=["all possible crates", "E0432"])
crate("a star behind a double colon", "use ::*; mod a { use crate::x; }", "absent", "unknown", refused=["all possible crates", "E0432"])
crate("a star in a list alone", "mod a { use {*}; } use a::x;", "absent", "unknown/unresolved", refused=["all possible crates", "E0432"])
crate("an import by its own name", "use crate::x;", "unresolved")
crate("of a name that the module itself would give", "mod a { use self::x; use self::y as z; use self::z as y; }", "unresolved", "follows", "follows")
crate("imports in bodies", "fn f() { use crate::none; } mod a { pub fn g() {} } const C: u8 = { use crate::none; 1 }; impl a::S { } struct S { a: u8 }",
      refused=["E0432", "E0425"])

# ---- re-exports
crate("three deep", "mod a { pub mod b { pub mod c { pub fn f() {} } pub use self::c::f; } pub use self::b::f; } pub use a::f; mod d { use "
      "crate::f; use crate::g; }", *["resolved"] * 4, "unresolved")
crate("through files",
      {"lib.rs": "mod a; pub use a::f;", "a.rs": "mod b; pub use b::f; pub use b::g;", "a/b.rs": "mod c; pub use c::f;", "a/b/c.rs": "pub fn f() {}"},
      "resolved", "resolved", "unresolved", "resolved")
crate("of modules", "mod a { pub mod b { pub fn f() {} } } mod c { pub use crate::a::b as d; } use c::d::f; use c::d::g; use c::b::f as h;",
      "resolved", "resolved", "unresolved", "unresolved")
crate("a chain of names", "mod m { pub fn a() {} pub use self::a as b; pub use self::b as c; pub use self::c as d; } use m::d; use m::e;",
      *["resolved"] * 4, "unresolved")
crate("a chain against the order", "mod m { pub use self::c as d; pub use self::b as c; pub use self::a as b; pub fn a() {} } use m::d;", *["resolved"] * 4)
crate("a follower", "mod a { pub use crate::none; } use a::none as n;", "unresolved", "follows")
crate("followers in a row", "pub use z::a; mod b { pub use crate::a as c; } use b::c as d; mod z {}", "unresolved", "follows", "follows")
crate("a follower by another name", "mod a { pub use crate::none as b; } mod c { use crate::a::b::d; }", "unresolved", "follows")
crate("who would not see it follows not", "mod a { use crate::none as b; } use a::b;", "unresolved", "unresolved")
crate("by another name it follows not", "mod a { pub use crate::none; } use a::other;", "unresolved", "unresolved")
crate("what an import would give alone", "mod a { pub use crate::none; pub fn f() {} } use a::f; use a::none as n;", "unresolved", "resolved", "follows")
crate("a circle of imports", "mod a { pub use crate::b::x; } mod b { pub use crate::a::x; } use crate::a::x;", "follows", "follows", "follows")
crate("of types alone it follows one of types", "mod a { pub use crate::none::{self as n}; } use a::n;", "unresolved", "follows")
crate("a follower of a private one", "mod a { fn f() {} } mod b { pub use crate::a::f; } mod c { use crate::b::f; }", "private", "follows")
crate("through what is not there", "mod a { pub use crate::none::b; } use a::b::c; use a::b::d::e;", "unresolved", "follows", "follows")

# ---- globs
crate("a glob", "mod a { pub fn f() {} pub struct S; } use a::*; mod b { use crate::{f, S, g}; }", *["resolved"] * 3, "unresolved")
crate("a glob of an empty module", "mod a {} use a::*; use crate::a::{*};", "resolved", "resolved")
crate("a glob of nothing", "mod a {} use a::b::*; use crate::c::*; use self::d::{*, e};", *["unresolved"] * 4)
crate("a glob of a struct, a function and an alias",
      "mod a { pub struct S; pub fn f() {} pub enum E {} pub type T = E; pub union U { a: u8 } } use a::S::*; use a::f::*; use a::T::*; use a::U::*;",
      *["unresolved"] * 4)
crate("a glob of an enum is of names not seen", "mod a { pub enum E { A, B } } use a::E::*; mod b { use crate::A; use super::E; }", "resolved",
      "unknown", "unknown", refused="E0432")
crate("globs of globs", "mod a { pub use crate::b::*; } mod b { pub use crate::c::*; } mod c { pub fn f() {} } use a::f; use a::g;", "resolved",
      "resolved", "resolved", "unresolved")
crate("a circle of globs", "mod a { pub use crate::b::*; pub fn f() {} } mod b { pub use crate::a::*; pub fn g() {} } use a::g; use b::f; use a::h;",
      *["resolved"] * 4, "unresolved")
crate("a glob of the own module", "use self::*; fn f() {} mod a { pub use self::*; use crate::*; use super::f as g; } use a::h;", *["resolved"] * 4,
      "unresolved", refused="E0432")
crate("a circle of three globs",
      "mod a { pub use super::b::*; } mod b { pub use super::c::*; } mod c { pub use super::a::*; pub fn f() {} } use a::f; use b::f as g; use c::x;",
      *["resolved"] * 5, "unresolved")
crate("a private glob brings nothing to others", "mod a { pub mod b { pub fn f() {} } use self::b::*; } use a::f;", "resolved", "private")
crate("but to those inside", "mod a { pub mod b { pub fn f() {} } use self::b::*; mod c { use super::f; } }", "resolved", "resolved")
crate("a glob takes what it sees", "mod a { pub fn f() {} fn g() {} pub(crate) fn h() {} } mod b { pub use super::a::*; } use b::f; use b::g; use b::h;",
      "resolved", "resolved", "unresolved", "resolved")
crate("a glob in a child takes what is private", "fn f() {} use self::f as g; mod a { use super::*; use f as i; mod b { use super::{f, g}; } }",
      *["resolved"] * 5)
crate("a glob passes on what it sees for those who see it", "mod a { fn f() {} pub mod b { pub use super::*; } } use a::b::f;", "resolved", "private")
crate("a glob in a visibility",
      "mod a { pub mod b { pub fn f() {} } pub(super) use self::b::*; mod c { use super::f; } } use a::f; mod d { use crate::a::f; }",
      *["resolved"] * 4)
crate("a declared name in front of a glob's",
      "mod a { pub mod n { pub fn f() {} } } mod b { pub use super::a::*; pub mod n { pub fn g() {} } } use b::n::g; use b::n::f;", "resolved",
      "resolved", "unresolved")
crate("also a private one", "mod a { pub fn f() {} } mod b { pub use super::a::*; fn f() {} } use b::f;", "resolved", "private")
crate("but only in its namespace", "mod a { pub mod n { pub fn f() {} } } mod b { pub use super::a::*; pub fn n() {} } use b::n; use b::n::f;",
      *["resolved"] * 3)
crate("a unit struct is a value too", "mod a { pub fn S() {} } mod b { pub use super::a::*; struct S; } use b::S;", "resolved", "private")
crate("a struct with fields is none", "mod a { pub fn S() {} } mod b { pub use super::a::*; struct S {} } use b::S;", "resolved", "resolved")
crate("two globs of one item", "mod a { pub fn f() {} } mod b { pub use super::a::*; } mod c { pub use super::a::*; pub use super::b::*; } use c::f;",
      *["resolved"] * 4)
crate("two globs of two items", "mod a { pub fn f() {} } mod b { pub fn f() {} } use a::*; use b::*; use self::f as g;", "resolved", "resolved",
      "resolved", refused="E0659")
crate("an import in front of a glob's",
      "mod a { pub mod n { pub fn f() {} } } mod b { pub mod n { pub fn g() {} } } use a::*; use b::n; use self::n::g;", *["resolved"] * 3)
crate("is left beside it", "mod a { pub mod n { pub fn f() {} } } mod b { pub mod n {} } use a::*; use b::n; use self::n::f;", *["resolved"] * 3,
      refused="E0432")
crate("a glob of what is not there", "mod a { pub use crate::none::*; } use a::f;", "unresolved", "unresolved")
crate("a glob of a follower", "pub use none as n; use n::*; mod a { use crate::x; }", "unknown", "unknown", "unknown", refused="E0432")
crate("no glob of an underscore", "mod a { pub trait T {} } mod b { pub use crate::a::T as _; } use b::*; use b::T;", "resolved", "resolved", "unresolved")
crate("a glob with a name behind", "mod a { pub mod b { pub fn f() {} } } use a::{b::{self, *}, *};", "resolved", "resolved", "resolved")
crate("globs and names that go round",
      "pub mod x { pub mod n { pub mod k {} } pub mod p { pub mod q {} } } mod m { use crate::x::*; use self::n::k as p; use self::p::q as n; }",
      "resolved", "resolved", "resolved", refused=["E0432", "cannot determine"])

# ---- visibilities
crate("a private item",
      "mod a { fn f() {} struct S; enum E {} trait T {} const C: u8 = 1; static D: u8 = 1; type A = u8; mod m {} } use a::{f, S, E, T, C, D, A, m};",
      *["private"] * 8)
crate("is seen inside", "mod a { fn f() {} mod b { use super::f; mod c { use super::super::f; } } }", "resolved", "resolved")
crate("and in its module", "fn f() {} mod a { use crate::f; }", "resolved")
crate("pub(crate)", "mod a { pub mod b { pub(crate) fn f() {} } } use a::b::f; mod c { use crate::a::b::f; }", "resolved", "resolved")
crate("pub(super)", "mod a { pub mod b { pub(super) fn f() {} } use self::b::f; } use a::b::f as g;", "resolved", "private")
crate("pub(self)", "mod a { pub mod b { pub(self) fn f() {} mod c { use super::f; } } use self::b::f; }", "resolved", "private")
crate("pub(in ..)", "mod a { pub mod b { pub mod c { pub(in crate::a) fn f() {} } use self::c::f; } use self::b::c::f; } use a::b::c::f as g;",
      "resolved", "resolved", "private")
crate("pub(in super::super)", "mod a { pub mod b { pub mod c { pub(in super::super) fn f() {} } } use self::b::c::f; } use a::b::c::f as g;",
      "resolved", "private")
crate("pub(in self)", "mod a { pub mod b { pub(in self) fn f() {} } use self::b::f; }", "private")
crate("pub(in crate)", "mod a { pub mod b { pub(in crate) fn f() {} } } use a::b::f;", "resolved")
crate("pub(in ..) in 2015", "mod a { pub mod b { pub(in a) fn f() {} } use self::b::f; } use a::b::f as g;", "resolved", "private", edition="2015")
crate("pub(in ..) of no module", "mod a { pub(in crate::none) fn f() {} } use a::f;", "resolved", refused="E0433")
crate("pub(in ..) of a module elsewhere", "mod b {} mod a { pub(in crate::b) fn f() {} } use a::f;", "resolved", refused="E0742")
crate("pub(super) in the root", "pub(super) fn f() {} mod a { use crate::f; }", "resolved", refused="E0433")
crate("a private module on the way", "mod a { mod b { pub fn f() {} } } use a::b::f; use crate::a::b::*;", "private", "private")
crate("a name that is not there, behind a private module", "mod a { mod b { pub fn f() {} } } use a::b::g;", "private")
crate("a private import", "mod a { use crate::b::f; } mod b { pub fn f() {} } use a::f;", "resolved", "private")
crate("an import in a visibility", "mod a { pub mod b { pub(in crate::a) use crate::f; } use self::b::f; } fn f() {} use a::b::f as g;", "resolved",
      "resolved", "private")
crate("private in one namespace", "mod a { mod f {} pub fn f() {} } use a::f; use a::f::g;", "resolved", "private")
crate("private in all", "mod a { mod f {} fn f() {} } use a::f;", "private")
crate("a private constructor",
      "mod a { pub struct S(u8); pub struct T(pub u8, pub(crate) u8); #[non_exhaustive] pub struct U(pub u8); } pub use a::{S, T, U};",
      *["resolved"] * 3)
crate("a field that a cfg disables narrows no constructor", "mod a { pub struct S(#[cfg(any())] u8); } mod b { pub use super::a::*; struct S {} } "
      "use b::S;", "resolved", "unknown")
crate("a constructor hides as its struct does", "mod a { pub fn S() {} } mod b { pub use super::a::*; pub struct S(u8); } pub use b::S;", "resolved",
      "resolved")
crate("private items of an extern block", 'mod a { extern "C" { pub fn f(); fn g(); pub static S: u8; static T: u8; } } use a::{f, g, S, T};',
      "resolved", "private", "resolved", "private")
crate("a private and a public way", "mod a { mod b { pub fn f() {} } pub use self::b::f; pub use self::b as c; } use a::f; use a::b::f as g;",
      "resolved", "too_wide", "resolved", "private")
crate("a glob's private name beside one that is seen",
      "mod a { pub fn f() {} } mod b { pub mod c { pub use crate::a::*; } use self::c::*; pub use self::c::f as g; } use b::f; use b::g;", "resolved",
      "resolved", "resolved", "private", "resolved")

# ---- namespaces and kinds of items
crate("items of all kinds", "mod a { pub fn f() {} pub struct S; pub struct R { pub a: u8 } pub struct P(pub u8); pub enum E {} pub union U { a: "
      "u8 } pub trait T {} pub type A = u8; pub const C: u8 = 1; pub static D: u8 = 1; pub mod m {} } " "use a::{f, S, R, P, E, U, T, A, C, D, m};",
      *["resolved"] * 11)
crate("one name in three namespaces",
      "mod a { pub mod f {} pub fn f() {} macro_rules! f { () => {} } pub(crate) use f; } use a::f; use a::f::{self as g};", *["resolved"] * 3,
      refused="E0255")
crate("an impl names nothing", "mod a { pub struct S; impl S { pub fn f() {} pub const C: u8 = 1; } pub trait T { fn g(); } impl T for S { fn g() "
      "{} } } use a::f; use a::C; use a::g;", *["unresolved"] * 3)
crate("a constant without a name", "mod a { pub const _: u8 = 1; pub fn f() {} } use a::f;", "resolved")
crate("unsafe, const, async and extern functions", 'mod a { pub unsafe fn f() {} pub const fn g() {} pub async fn h() {} pub extern "C" fn i() {} '
      'pub const unsafe extern "C" fn j() {} } use a::{f, g, h, i, j};', *["resolved"] * 5)
crate("unsafe and auto words", "mod a { pub unsafe trait T {} pub static mut S: u8 = 1; pub union union { pub a: u8 } } use a::{T, S, union};",
      *["resolved"] * 3)
crate("a safe item of an extern block", 'unsafe extern "C" { pub safe fn f(); pub unsafe static S: u8; } mod a { use crate::{f, S, g}; }', "resolved",
      "resolved", "unresolved", edition="2024")
crate("documentation and attributes of the language", "/// A.\n#[derive(Debug, Clone, Copy, PartialEq, Eq, PartialOrd, Ord, Hash, "
      "Default)]\n#[repr(C)]\n#[must_use]\npub struct S;\n"
      "#[inline]\n#[cold]\n#[doc(hidden)]\n#[deprecated]\n#[rustfmt::skip]\n#[allow(clippy::all)]\npub fn f() {}\nmod a { use crate::{S, f, g}; }",
      "resolved", "resolved", "unresolved")
crate("unsafe attributes", "#[unsafe(no_mangle)] pub fn f() {} mod a { use crate::{f, g}; }", "resolved", "unresolved", edition="2024")
crate("attributes of tools", "#[clippy::msrv = \"1.0\"] #[diagnostic::on_unimplemented(message = \"a\")] pub trait T {} mod a { use crate::{T, U}; }",
      "resolved", "unresolved")

# ---- scopes whose inside is not seen, and things that are none
crate("variants", "mod a { pub enum E { A, B(u8), C { d: u8 } } } use a::E::A; use a::E::{B, C}; use a::E; mod b { use crate::E::A; }",
      *["unknown"] * 3, "resolved", "unknown")
crate("a variant that is not there", "pub enum E { A } use E::B; use crate::E::A::c;", "unknown", "unknown", refused="E0432")
crate("a private enum", "mod a { enum E { A } } use a::E::A;", "private")
crate("names of a trait", "pub trait T { fn f(); } use T::f; use crate::T::g;", "unknown", "unknown", refused=["E0658", "E0432"])
crate("through a struct, a union and a function",
      "pub struct S; impl S { pub fn new() {} } pub union U { a: u8 } pub fn f() {} use S::new; use crate::U::a; use self::f::b;",
      *["unresolved"] * 3)
crate("through an alias, a constant and a static",
      "pub enum E { A } pub type T = E; pub const C: u8 = 1; pub static D: u8 = 1; use T::A; use crate::C::a; use crate::D::b;", *["unresolved"] * 3)
crate("through a struct that a use renames", "mod a { pub struct S; } use a::S as T; use self::T::x;", "resolved", "unresolved")
crate("through an enum that a use renames", "mod a { pub enum E { A } } use a::E as F; use F::A; mod b { use crate::F::A; }", "resolved", "unknown", "unknown")
crate("a variant behind a re-export", "mod a { pub enum E { A } pub use self::E::A; } use a::A; use a::B;", "unknown", "unknown", "unresolved")

# ---- macro_rules
M = "macro_rules! m { () => {} }"
crate("a macro is in no module", f"{M} mod a {{ use crate::m; }} mod b {{ {M} }} use b::m as n;", "unresolved", "unresolved")
crate("but by its name alone", f"{M} pub(crate) use m; mod a {{ use crate::m; use m as n; }}", *["resolved"] * 3)
crate("under another name", f"{M} use m as n; mod a {{ use crate::n; use crate::m; }}", "resolved", "resolved", "unresolved")
crate("in a module, passed on", f"mod a {{ {M} pub(crate) use m; pub(super) use m as n; }} use a::m; use a::n;", *["resolved"] * 4)
crate("by the name alone through a module", f"#[macro_use] mod a {{ {M} }} use m as n;", "resolved")
crate("not through a module without macro_use", f"mod a {{ {M} }} use m as n;", "resolved", refused="E0432")
crate("not in 2015", f"{M} use m as n;", "resolved", edition="2015", refused="E0432")
crate("a macro for everybody", f"{M} pub use m;", "resolved", refused="E0364")
crate("a macro of the crate for everybody", f"mod a {{ {M} pub(crate) use m; }} pub use a::m as n;", "resolved", "resolved", refused="E0364")
crate("an exported macro", f"#[macro_export] {M} mod a {{ use crate::m; pub use crate::m as n; use crate::o; }}", "resolved", "resolved", "unresolved")
crate("is in the root", f"mod a {{ mod b {{ #[macro_export] {M} }} }} mod c {{ pub use crate::m; }} use a::b as d;", "resolved", "private")
crate("and not in its module", f"mod a {{ #[macro_export] {M} }} use a::m as n; use crate::m as o;", "unresolved", "resolved")
crate("exported with words", f"mod a {{ #[macro_export(local_inner_macros)] {M} }} mod b {{ use crate::m; }}", "resolved")
crate("exported by a cfg", f"mod a {{ #[cfg_attr(all(), macro_export)] {M} }} mod b {{ use crate::m; }}", "resolved")
crate("not exported by a cfg", f"mod a {{ #[cfg_attr(any(), macro_export)] {M} }} mod b {{ use crate::m; use crate::m::n; }}", "unknown/unresolved",
      "unresolved", refused="E0432")
crate("exported from a body", f"fn g() {{ #[macro_export] {M} }} mod a {{ use crate::m as n; use crate::m::o; }}", "unknown", "unresolved")
crate("exported from a constant", f"mod b {{ const _: () = {{ #[macro_export] {M} }}; }} mod a {{ use crate::m; use crate::b::m as n; }}", "unknown",
      "unresolved")
crate("exported from a body in a file",
      {"lib.rs": "mod a; mod b { use crate::m; }", "a.rs": f"impl S {{ fn f() {{ #[macro_export] {M} }} }} struct S;"}, "unknown")
crate("the word in a comment", "// macro_export\nmod a { use crate::m; use crate::n::o; }", "unknown/unresolved", "unresolved", refused="E0432")
crate("an exported macro is for everybody", f"mod a {{ #[macro_export] {M} }} pub use crate::m as n; pub mod b {{ pub use crate::m; }}", "resolved", "resolved")
crate("a macro has no names", f"#[macro_export] {M} mod a {{ use crate::m::b; use crate::m::*; }}", "unresolved", "unresolved")
EXPORTS = "macro_rules! make { () => { #[macro_export] macro_rules! made { () => {} } } }"
crate("exported by a call in the root", f"{EXPORTS} make!{{}} mod b {{ use crate::made as n; }}", "unknown", refused="macro-expanded")
crate("exported by a call, and allowed", f"#![allow(macro_expanded_macro_exports_accessed_by_absolute_paths)] {EXPORTS} #[derive(Debug)] pub "
      f"struct S; mod a {{ make!{{}} }} mod b {{ use crate::made as n; }}", "unknown")
crate("allowed with its group",
      f"#![allow(future_incompatible)] {EXPORTS} #[derive(Debug)] pub struct S; mod a {{ make!{{}} }} mod b {{ use crate::made as n; }}", "unknown")
crate("exported by a call of another crate, and allowed",
      "#![allow(future_incompatible)] #[derive(Debug)] pub struct S; mod a { more::make!{} } mod b { use crate::made as n; }", "unknown",
      others={"more": "#[macro_export] macro_rules! make { () => { #[macro_export] macro_rules! made { () => {} } } }"})
crate("warned of with its group",
      f"#![warn(future_incompatible)] {EXPORTS} #[derive(Debug)] pub struct S; mod a {{ make!{{}} }} mod b {{ use crate::made as n; }}", "unknown")
crate("exported by a call, through a glob", f"{EXPORTS} #[derive(Debug)] pub struct S; mod a {{ make!{{}} }} mod m {{ pub use super::*; }} mod o "
      f"{{ use crate::m::made as n; use crate::made as k; }}", "resolved", "unknown", "unknown", refused="macro-expanded")
crate("and by its own name", f"{EXPORTS} #[derive(Debug)] pub struct S; mod a {{ make!{{}} }} mod m {{ use super::*; use self::made as k; }}",
      "resolved", "unknown")
crate("exported by an attribute, through a glob",
      "#[derive(Debug)] pub struct S; mod a { #[more::export] fn f() {} } pub mod m { pub use crate::*; } mod o { use crate::m::made as n; }",
      "resolved", "unknown", others={"more": 'extern crate proc_macro; use proc_macro::TokenStream; #[proc_macro_attribute] pub fn export(_: '
      'TokenStream, _: TokenStream) -> TokenStream { "#[macro_export] macro_rules! made { () => {} }".parse().unwrap() }'})
crate("exported from a file of a body",
      {"lib.rs": 'fn f() { #[path = "b.rs"] mod b; } mod m { use crate::made as n; }', "b.rs": "#[macro_export] macro_rules! made { () => {} }"},
      "unknown")
crate("exported from a file below a file of a body", {"lib.rs": "mod a; mod m { use crate::made as n; }", "a.rs": 'fn f() { #[path = "b"] mod b { '
      'mod c; } }', "b/c.rs": "#[macro_export] macro_rules! made { () => {} }"}, "unknown")
crate("the macros of a proc macro crate", "extern crate proc_macro; use proc_macro::TokenStream; #[proc_macro_derive(Add, attributes(help))] pub "
      "fn add(x: TokenStream) -> TokenStream { x } " "#[proc_macro] pub fn call(x: TokenStream) -> TokenStream { x } mod m { use crate::Add; use "
      "crate::call; use crate::Sub; }", "unknown", "unknown", "resolved/unknown", "resolved", "unresolved/unknown")
crate("and not allowed", "#[derive(Debug)] pub struct S; mod a { more::make!{} } mod b { use crate::made as n; }", "unresolved",
      others={"more": "#[macro_export] macro_rules! make { () => { #[macro_export] macro_rules! made { () => {} } } }"})

# ---- extern crates
crate("an extern crate", "extern crate std as s; use s::fmt; mod a { use s::mem; use crate::s::rc; use super::s; }", *["unknown"] * 5)
crate("one in a module", "mod a { pub extern crate core as k; extern crate core as l; } use a::k::fmt; use a::l; use a::z;", "unknown", "unknown",
      "unknown", "private", "unresolved")
crate("the crate itself", "extern crate self as me; pub fn f() {} mod a { use me::f; use me::a::g; }", *["unknown"] * 3, refused="E0432")
crate("the crate itself in a module", "mod a { extern crate self as me; use me::f; } pub fn f() {}", "unknown", "unknown")
crate("alloc", "extern crate alloc; mod a { use alloc::vec; use crate::alloc::rc; }", *["unknown"] * 3)
crate("one that is not there", "extern crate none; use none::f;", "unknown", "unknown", refused="E0463")
crate("without a name", "extern crate core as _; use crate::core;", "unknown", "unresolved")
crate("a private one for everybody", "extern crate core as k; pub use k as j;", "unknown", "unknown", refused="E0365")
crate("with macros", '#[macro_use] extern crate more; use make as m; mod a { use make as n; use crate::make; }', "unknown", "unknown", "unknown", "unresolved",
      others={"more": "#[macro_export] macro_rules! make { () => {} }"})
crate("in 2015", "extern crate core as k; mod a { use k::fmt; use ::k::mem; use self::k; }", "unknown", "unknown", "unknown", "unresolved", edition="2015")

# ---- veils
MAKE = "macro_rules! make { ($i:item) => { $i } }"
crate("a call", f"{MAKE} make! {{ pub fn f() {{}} }} mod a {{ use crate::f; use super::f as g; use crate::a; use crate::f::{{self as h}}; }}",
      "unknown", "unknown", "resolved", "unknown", refused="E0432")
crate("a call in a module", f"{MAKE} mod a {{ make! {{ pub fn f() {{}} }} }} use a::f; use crate::b;", "unknown", "unresolved")
crate("a module made by a call", f"{MAKE} mod a {{ make! {{ pub mod b {{ pub fn f() {{}} }} }} }} use a::b::f;", "unknown")
crate("what is made is for everybody", f"mod z {{ {MAKE} pub(crate) use make; }} mod a {{ crate::z::make! {{ pub fn f() {{}} }} }} pub use a::f;",
      "resolved", "unknown")
crate("a call in brackets", f"{MAKE} mod a {{ make![pub struct S;]; make!(pub struct T;); }} use a::{{S, T}};", "unknown", "unknown")
crate("a call by a path", "mod a { std::thread_local! { pub static S: u8 = 1; } } use a::S; use a::T;", "unknown", "unknown", refused="E0432")
crate("an included file", {"lib.rs": 'mod a { include!("more.in"); } use a::f; use crate::h as g;', "more.in": "pub fn f() {}"}, "unknown", "unresolved")
crate("a call in an extern block", 'macro_rules! make { () => { pub fn f(); } } mod a { extern "C" { make! {} } } use a::f; use crate::h as g;',
      "unknown", "unresolved")
crate("calls elsewhere", "macro_rules! make { () => {} } mod a { fn g() { make!{} } impl S { make!{} } trait T { make!{} } pub struct S; const C: "
      "() = { make!{} }; } use a::f;", "unresolved")
crate("a call names nothing that the module declares",
      f"{MAKE} mod a {{ make! {{ pub fn g() {{}} }} mod b {{ pub fn f() {{}} }} pub struct S; }} use a::b::f; use a::S::x;", "private", "unresolved")
crate("but in its namespace", f"{MAKE} mod a {{ make! {{ pub mod f {{ pub fn g() {{}} }} }} pub fn f() {{}} }} use a::f; use a::f::g;", "resolved", "unknown")
crate("a veil goes through globs", f"{MAKE} mod a {{ make! {{ pub fn f() {{}} }} }} mod b {{ pub use crate::a::*; }} use b::f; use b::c::d;",
      "resolved", "unknown", "unknown", refused="E0432")
crate("not through those that are private",
      f"{MAKE} mod a {{ make! {{ pub fn f() {{}} }} }} mod b {{ use crate::a::*; mod c {{ use super::f; }} }} use b::f;", "resolved", "unknown",
      "unresolved/private")
crate("a veil in a circle of globs",
      f"{MAKE} mod a {{ pub use crate::b::*; }} mod b {{ pub use crate::a::*; make! {{ pub fn f() {{}} }} }} use a::f; mod c {{ use crate::g; }}",
      "resolved", "resolved", "unknown", "unresolved")
crate("a call that only errs", 'compile_error!("a"); mod a { use crate::x; }', "unresolved/unknown", refused="a", is_held=False)
crate("a call of assembly", 'core::arch::global_asm!(""); mod a { use crate::x; use core::arch::global_asm; global_asm!(""); } use a::y;',
      "unresolved/unknown", "unknown", "unresolved/unknown")
crate("a macro of the crate called compile_error", "macro_rules! compile_error { () => { pub fn f() {} } } compile_error! {} mod a { use crate::f; }",
      "unknown")
crate("a macro of the crate called global_asm", "macro_rules! global_asm { () => { pub fn f() {} } } mod b { global_asm! {} } use b::f;", "unknown")
crate("a macro of another crate called global_asm", "use more::make as global_asm; global_asm! {} mod a { use crate::f; }", "unknown", "unknown",
      others={"more": "#[macro_export] macro_rules! make { () => { pub fn f() {} } }"})
crate("a macro passed on as compile_error", "mod z { macro_rules! make { () => { pub fn f() {} } } pub(crate) use make as compile_error; } mod a { "
      "use crate::z::compile_error; compile_error! {} } use a::f;", "resolved", "resolved", "unknown")
crate("a macro of another crate by its path", "more::compile_error! {} mod a { use crate::f; }", "unknown",
      others={"more": "#[macro_export] macro_rules! compile_error { () => { pub fn f() {} } }"})
crate("a macro of another crate by macro_use", "#[macro_use] extern crate more; compile_error! {} mod a { use crate::f; }", "unknown", "unknown",
      others={"more": "#[macro_export] macro_rules! compile_error { () => { pub fn f() {} } }"})
crate("a call makes an extern crate", "macro_rules! make { () => { extern crate core as k; } } make! {} mod a { use k::fmt; }", "unknown")
PROC = """extern crate proc_macro; use proc_macro::TokenStream;
fn with(item: TokenStream) -> TokenStream { let mut all: TokenStream = "pub struct Made;".parse().unwrap(); all.extend(item); all }
#[proc_macro_attribute] pub fn add(_: TokenStream, item: TokenStream) -> TokenStream { with(item) }
#[proc_macro_attribute] pub fn drop(_: TokenStream, _: TokenStream) -> TokenStream { TokenStream::new() }
#[proc_macro_attribute] pub fn inside(_: TokenStream, _: TokenStream) -> TokenStream { "pub mod a { pub fn f() {} }".parse().unwrap() }
#[proc_macro_derive(Add, attributes(help))] pub fn derive(_: TokenStream) -> TokenStream { with(TokenStream::new()) }
#[proc_macro_derive(Clone)] pub fn derive_clone(_: TokenStream) -> TokenStream { with(TokenStream::new()) }
"""
PROCS = {"proc": PROC}
crate("an attribute", "mod a { #[proc::add] pub struct S; #[proc::add] mod b {} } use a::Made; use a::S; use crate::x;", "unknown", "resolved",
      "unresolved", others=PROCS, refused="E0428")
crate("an item under an attribute may be gone",
      "mod b { pub mod n { pub fn f() {} } } mod a { pub use crate::b::*; #[proc::drop] mod n {} } use a::n::f;", "resolved", "resolved/unknown",
      others=PROCS)
crate("and be another", "#[proc::inside] mod a { } use a::f; mod b { use crate::a::f; }", "unknown", "unknown", others=PROCS)
crate("an import below an attribute", "#[proc::inside] mod a { use super::none; mod b { use crate::none; } } #[proc::drop] use crate::none;",
      "absent/unknown", "absent/unknown", "absent/unknown", others=PROCS)
crate("an attribute on an impl", "mod a { pub struct S; #[proc::add] impl S {} } use a::Made; use crate::x;", "unknown", "unresolved", others=PROCS)
crate("an attribute that a cfg gives",
      "mod a { #[cfg_attr(all(), proc::add)] pub struct S; #[cfg_attr(any(), proc::add)] pub struct T; } use a::Made;", "unknown", others=PROCS)
crate("an attribute that no cfg gives", "mod a { #[cfg_attr(any(), proc::add)] pub struct T; } use a::Made; use a::T;", "unresolved", "resolved", others=PROCS)
crate("a derive", "mod a { #[derive(Debug, proc::Add)] pub struct S; } use a::Made; use a::S; use crate::x;", "unknown", "resolved", "unresolved", others=PROCS)
crate("a derive by its name", "mod a { use proc::Add; #[derive(Add)] #[help] pub struct S; } use a::Made;", "unknown", "unknown", others=PROCS)
crate("core's derives by their paths", "mod a { #[derive(core::fmt::Debug, std::clone::Clone, ::core::cmp::PartialEq)] pub struct S; } use a::Made;",
      "unresolved/unknown", refused="E0432")
crate("another's derive that is called as one of core's", "mod a { use proc::Clone; #[derive(Clone)] pub struct S; } use a::Made;", "unknown",
      "unknown", others=PROCS, is_premised=True)
crate("such a one by macro_use", "#[macro_use] extern crate proc; mod a { #[derive(Clone)] pub struct S; } use a::Made;", "unknown", "unknown", others=PROCS, is_premised=True)
crate("such a one passed on", "mod z { pub use proc::Clone; } mod a { use crate::z::Clone; #[derive(Clone)] pub struct S; } use a::Made;", "unknown",
      "unknown", "unknown", others=PROCS, is_premised=True)
crate("another's attribute called test", "mod a { use proc::add as test; #[test] pub fn f() {} } use a::Made;", "unknown", "unknown", others=PROCS, is_premised=True)
crate("another's attribute called bench", "mod a { use proc::add as bench; #[bench] pub fn f() {} } use a::Made;", "unknown", "unknown", others=PROCS, is_premised=True)
crate("another's attribute called global_allocator", "mod a { use proc::add as global_allocator; #[global_allocator] pub fn f() {} } use a::Made;",
      "unknown", "unknown", others=PROCS, is_premised=True)
crate("an attribute that was the language's once", "mod a { use proc::add as start; #[start] pub fn f() {} } use a::Made;", "unknown", "unknown",
      others=PROCS)
crate("a glob of the like is ambiguous", "mod z { pub use proc::Clone; } use z::*; #[derive(Clone)] pub struct S; mod m { use crate::Made; }",
      "unknown", "resolved", "unknown/unresolved", others=PROCS, refused="E0659")
crate("an attribute on an extern block",
      'mod a { #[proc::add] extern "C" { pub fn f(); } #[proc::drop] extern "C" { pub fn g(); } } use a::Made; use a::f; use a::g;', "unknown",
      *["resolved/unknown"] * 2, others=PROCS, refused="E0432")
crate("an attribute on an extern crate", "#[proc::drop] extern crate core as k; mod a { use crate::k; }", "unknown", "unknown", others=PROCS, refused="E0432")
crate("a derive that a cfg gives", "mod a { #[cfg_attr(all(), derive(proc::Add))] pub struct S; } use a::Made; use a::S;", "unknown", "resolved", others=PROCS)
crate("a derive of a macro that a cfg does not give", "mod a { #[cfg_attr(any(), derive(proc::Add))] pub struct S; } use a::Made; use a::S;",
      "unresolved", "resolved", others=PROCS)
crate("another's attribute called derive", "mod a { use proc::add as derive; #[derive(Debug)] pub struct S; } use a::Made;", "unknown", "unknown", others=PROCS, is_premised=True)
crate("another crate called as a tool", "mod a { use proc as rustfmt; #[rustfmt::add] pub fn f() {} } use a::Made;", "unknown", "unknown", others=PROCS, is_premised=True)
crate("an attribute in a module that a glob takes", "mod a { #[proc::add] pub struct S; } mod b { pub use crate::a::*; } use b::Made;", "resolved",
      "unknown", others=PROCS)

# ---- what a cfg disables
crate("a disabled item", "#[cfg(any())] pub fn f() {} #[cfg(windows)] pub mod m { pub fn g() {} } mod a { use crate::f; use crate::m::g; }",
      "unresolved", "unresolved")
crate("a disabled import", "#[cfg(any())] use crate::none; #[cfg(test)] mod tests { use super::none; use super::*; } mod a { use crate::none as n; }",
      "absent", "absent", "absent", "unresolved")
crate("an enabled import", "#[cfg(unix)] use crate::none; #[cfg(not(test))] mod a { use crate::other; }", "unresolved", "unresolved")
crate("an item that a cfg of another may disable", "#[cfg(foo)] pub fn f() {} mod a { use crate::f; use crate::g; }", "unknown", "unknown", refused="E0432")
crate("a module that such a cfg disables", "mod a { #[cfg(foo)] pub mod b { pub fn f() {} } } use a::b::f; use crate::x; use crate::z::y;", "unknown",
      "unknown", "unresolved", refused="E0432")
crate("with a name of rustc's beside",
      "mod a { #[cfg(all(foo, unix))] pub mod b {} #[cfg(any(windows, target_os = \"none\"))] pub mod c {} } use a::b; mod d { use crate::a::c; }",
      "unknown", "unknown/unresolved", refused="E0432")
crate("a module that rustc's own names disable",
      "mod a { #[cfg(any(windows, target_os = \"none\"))] pub mod c {} #[cfg(debug_assertions)] pub mod d {} } use a::c::x;", "unresolved")
crate("a macro that such a cfg exports", f"mod b {{ #[cfg(foo)] #[macro_export] {M} }} mod a {{ use crate::m; }}", "unknown", refused="E0432")
crate("a cfg that is given", "#[cfg(foo)] pub fn f() {} #[cfg(not(foo))] pub fn g() {} mod a { use crate::f; use crate::g; }", "resolved", "unresolved/unknown",
      cfgs=["foo"], options=["--host-cfg", "--cfg", "foo"], refused="E0432")
crate("a disabled extern crate", "#[cfg(any())] extern crate none; mod a { use crate::none::f; }", "absent", "unresolved")
crate("a file that its own cfg disables",
      {"lib.rs": "mod a; mod b { use crate::a; use crate::a::f; }", "a.rs": "#![cfg(any())] pub fn f() {} use crate::none;"}, "unresolved/unknown",
      "unresolved/unknown", "absent", refused="E0432")
crate("a root that its own cfg disables", "#![cfg(any())] use crate::none; mod a { use super::none; }", "absent", "absent")
crate("a disabled call makes nothing", f"{MAKE} mod a {{ #[cfg(any())] make! {{ pub fn f() {{}} }} }} use a::f;", "unresolved")
crate("a disabled glob brings nothing", "mod a { pub fn f() {} } mod b { #[cfg(any())] pub use crate::a::*; } use b::f;", "absent", "unresolved")
crate("a disabled name hides nothing", "mod a { pub fn f() {} } mod b { pub use crate::a::*; #[cfg(any())] fn f() {} } use b::f;", "resolved", "resolved")
crate("a feature without a manifest", '#[cfg(feature = "x")] pub fn f() {} mod a { use crate::f; }', "unknown", refused="E0432")

# ---- what is not sure
crate("a test", "#[test] fn f() {} mod a { use crate::f; }", "resolved/unknown", refused="E0432")
crate("a test hides nothing", "mod a { pub fn f() {} } pub mod b { pub use crate::a::*; #[test] fn f() {} } pub use b::f;", "resolved", "resolved")
crate("nor a bench", "mod a { pub fn f() {} } pub mod b { pub use crate::a::*; #[bench] fn f() {} } pub use b::f;", "resolved", "resolved", refused="E0658")
crate("a test is no veil", "mod a { #[test] fn f() {} } use a::g;", "unresolved")
crate("an item under an attribute hides nothing", "mod a { pub fn f() {} } pub mod b { pub use crate::a::*; #[proc::drop] fn f() {} } pub use b::f;",
      "resolved", "resolved/unknown", others=PROCS)

# ---- other crates
crate("of a crate without a manifest any name", "use std::fmt; use core::none; use serde::Serialize; use anything; use anything as any; use a::*;",
      *["unknown"] * 6, refused="E0432")
crate("the glob of another crate", "use std::fmt::*; mod a { use crate::Debug; use super::none; }", *["unknown"] * 3, refused="E0432")
crate("not for those who do not see it", "mod a { use std::fmt::*; mod b { use super::Debug; } } use a::Debug;", "unknown", "unknown", "unresolved/private")
crate("a re-export of another crate's", "pub use std::fmt; mod a { use crate::fmt::Debug; use crate::fmt; use crate::mem; }", *["unknown"] * 3, "unresolved")
crate("a private import of another crate's", "mod a { use std::fmt; } use a::fmt;", "unknown", "private")
crate("a module in front of another crate", "mod core { pub fn f() {} } use core::f; use core::fmt;", "resolved", "unresolved")
crate("a struct in front of another crate", "struct core; use core::fmt;", "unresolved")
crate("only its own module's", "mod core { pub fn f() {} } mod a { use core::fmt; use super::core::f; }", "unknown", "resolved")
crate("an import leaves both", "mod a { pub mod core { pub fn f() {} } } use a::core; use core::f; use core::fmt;", "resolved", "resolved", "unknown",
      refused="E0432")
crate("preludes", "mod a { use Option::Some; use Result::{Ok, Err}; use Option; use u8; use str as s; use inline as i; use println as p; use "
      "derive as d; use Vec as V; }", *["unknown"] * 10)
crate("built-in types have no names", "use u8::MAX; use Vec::new;", "unknown", "unknown", refused="E0432")

MORE = {"more": "pub mod m { pub fn f() {} } pub fn f() {}"}
package("the standard crates of a manifest", "", "use std::fmt; use core::mem; use ::std::rc; mod a { use std::cell; use core::none; }",
      *["unknown"] * 5, refused="E0432")
package("a name of no crate", "", "use serde::Serialize; use ::serde::de; mod a { use serde::*; use serde::{self as s, de}; }", *["unresolved"] * 3,
      "unknown", "unresolved", refused="E0432")
package("a cfg of crates of macros", "[lib]\nproc-macro = true\n", "extern crate proc_macro; #[cfg(proc_macro)] fn f() {} mod a { use crate::f; }",
        "unknown", "unknown", is_held=False)
package("a name alone", "", "use nothing; use ::nothing as n;", "unknown", "unknown", refused="E0432")
package("a dependency", '[dependencies]\nmore = "1"\n', "use more::f; use more::none; use ::more::m; use more::*; use less::f as g;",
      *["unknown"] * 4, "unknown/unresolved", others=MORE, refused="E0432")
package("a renamed dependency", '[dependencies]\nmore = { package = "less", version = "1" }\n', "use more::f; mod a { use less::f; }", "unknown",
      "unresolved", others=MORE)
package("a dependency with a hyphen", '[dependencies]\nmo-re = "1"\n', "use mo_re::f;", "unknown", others={"mo_re": MORE["more"]})
package("a dependency whose library has another name", '[dependencies]\nmd-5 = "1"\n', "use md5::f;", "unknown", others={"md5": MORE["more"]})
package("a dependency of one platform", "[target.'cfg(unix)'.dependencies]\nmore = \"1\"\n", "use more::f;", "unknown", others=MORE)
package("a dependency of tests", '[dev-dependencies]\nmore = "1"\n', "use more::f;", "unknown", refused="E0432")
package("an optional dependency", '[dependencies]\nmore = { version = "1", optional = true }\n', "use more::f;", "unknown", refused="E0432")
package("a dependency as a table", '[dependencies.more]\nversion = "1"\n', "use more::f;", "unknown", others=MORE)
package("the own library in the program", "", "pub fn f() {}", "unknown", "unresolved",
      more={"src/main.rs": "use our_own::f; use crate::none; fn main() {}"}, roots=["src/main.rs"], others={"our_own": "pub fn f() {}"})
package("the own library under another name", '[lib]\nname = "other"\n', "pub fn f() {}", "unknown",
      more={"src/main.rs": "use other::f; fn main() {}"}, roots=["src/main.rs"], others={"other": "pub fn f() {}"})
package("a library has not its own name", "", "pub fn f() {} mod a { use our_own::f; }", "unresolved/unknown", refused="E0432")
package("extern crates of the root", "",
      "extern crate core as k; extern crate self as me; pub fn f() {} mod a { use k::fmt; use me::f; use you::f; }", *["unknown"] * 4, "unresolved")
package("extern crates of other modules", "", "mod a { extern crate core as k; } mod b { use k::fmt; }", "unknown", "unresolved")
package("an extern crate that a call makes", "", "macro_rules! make { () => { extern crate core as k; } } make! {} mod a { use k::fmt; }", "unknown")
package("an extern crate that a cfg of another disables", "", "#[cfg(foo)] extern crate core as k; mod a { use k::fmt; }", "absent", "unknown", refused="E0432")
package("preludes with a manifest", "",
      "mod a { use Option::Some; use Result::{Ok, Err}; use String; use u8 as byte; use Option::*; use inline; use vec as v; }", *["unknown"] * 8)
package("names of a module with a manifest", "", "mod a { pub fn f() {} } use a::f; use a::g; use b::f as h; mod c { use a::f; }", "resolved",
      "unresolved", "unresolved", "unresolved")
package("names of globs with a manifest", "", "mod a { pub mod b { pub fn f() {} } } use a::*; use b::f; use c::f as g;", "resolved", "resolved", "unresolved")
package("a glob of another crate before a plain path", '[dependencies]\nmore = { package = "more", version = "1" }\n',
      "use more::*; use m::f; use n::f as g;", "unknown", "unknown", "unknown",
      others={"more": "pub mod m { pub fn f() {} } pub mod n { pub fn f() {} }"})
package("a macro call before a plain path", "", f"{MAKE} make! {{ pub mod b {{ pub fn f() {{}} }} }} use b::f; mod a {{ use b::f; }}", "unknown",
      "unknown/unresolved", refused="E0432")
package("in 2015 with a manifest", '[dependencies]\nmore = "1"\n',
      "extern crate more; mod a { use more::f; use std::fmt; use ::less::g; use crate::more::m; pub fn h() {} } use a::h;", *["unknown"] * 3,
      "unresolved/unknown", "unknown", "resolved", edition="2015", others=MORE, refused="E0432")
package("in 2015 a dependency without an extern crate", '[dependencies]\nmore = "1"\n', "mod a { use more::f; }", "unknown", edition="2015",
      others=MORE, refused="E0432")
package("a dependency by a dotted key", '[dependencies]\nmore.version = "1"\n', "use more::f;", "unknown", others=MORE)
package("a dependency in quotes", '[dependencies]\n"more" = "1"\n', "use more::f;", "unknown", others=MORE)
package("a dependency of a target", '[target.x86_64-unknown-linux-gnu.dependencies.more]\npackage = "more"\nversion = "1"\n', "use more::f;",
      "unknown", others=MORE)
package("the own library in other programs", "", "pub fn f() {}", "unknown", "unknown",
      more={"src/bin/tool.rs": "use our_own::f; fn main() {}", "src/bin/more/main.rs": "use our_own::f; fn main() {}"},
      roots=["src/bin/tool.rs", "src/bin/more/main.rs"], others={"our_own": "pub fn f() {}"})
package("an import of its module with a manifest", "", "mod a { pub mod b { pub fn f() {} } } use a::b; use b::f; use b::g; use b::c::d;", "resolved",
      "resolved", "unresolved", "unresolved")
package("features", '[features]\ndefault = ["a"]\na = []\nb = []\n',
      '#[cfg(feature = "a")] pub fn f() {} #[cfg(feature = "b")] pub fn g() {} mod m { use crate::f; use crate::g; }', "resolved", "unresolved",
      cfgs=['feature="a"'])
package("a feature of no manifest", '[features]\nb = []\n', '#[cfg(feature = "c")] pub fn g() {} mod m { use crate::g; }', "unknown", refused="E0432")
package("a feature that is given", '[features]\nb = []\n', '#[cfg(feature = "b")] pub fn g() {} mod m { use crate::g; }', "resolved",
      cfgs=['feature="b"'], options=["--features", "b"])
package("an exported macro that the manifest allows", '[lints.rust]\nmacro_expanded_macro_exports_accessed_by_absolute_paths = "allow"\n',
        f"#[derive(Debug)] pub struct S; {EXPORTS} mod a {{ make! {{}} }} mod b {{ use crate::made as n; }}", "unknown", refused="macro-expanded")

# ---- too wide
crate("an item of the crate for everybody",
      "mod a { pub(crate) fn f() {} pub(crate) struct S; pub(crate) mod m {} pub fn g() {} } pub use a::{f, S, m, g};", *["too_wide"] * 3, "resolved")
crate("a private item for everybody", "fn f() {} mod m {} pub use self::f as g; pub use self::m as n;", "too_wide", "too_wide")
crate("a plain name may be a macro, too", "mod m {} pub use m as n;", "resolved", refused="E0365")
crate("a module around for everybody", "mod a { pub use self as b; pub use super as c; }", "resolved", "resolved", refused="E0365")
crate("for more modules",
      "mod a { pub mod b { pub(super) fn f() {} } pub(crate) use self::b::f; pub(self) use self::b::f as g; pub(super) use self::b::f as h; }",
      "too_wide", "resolved", "too_wide")
crate("for as many", "mod a { pub mod b { pub(in crate::a) fn f() {} } pub(in crate::a) use self::b::f; mod c { pub(super) use super::b::f; } }",
      "resolved", "resolved")
crate("behind a private module", "mod p { mod a { pub(crate) fn f() {} } pub use self::a::f; }", "too_wide")
crate("a private import", "mod a { pub fn f() {} } use a::f; mod m { pub use super::f; }", "resolved", "too_wide")
crate("a private glob's name", "mod a { pub fn f() {} } use a::*; pub use self::f as g;", "resolved", "too_wide")
crate("globs are not told", "mod a { pub(crate) fn f() {} } pub use a::*; mod b { use crate::f; }", "resolved", "resolved")
crate("in one namespace", "mod a { pub(crate) fn f() {} pub mod f {} pub(crate) mod g {} pub fn g() {} } pub use a::f; pub use a::g;", "resolved", "resolved")
crate("in all that is seen", "mod a { pub(crate) fn f() {} mod f {} } pub use a::f;", "too_wide")
crate("as an underscore", "mod a { pub(crate) trait T {} } pub use a::T as _;", "too_wide")
crate("of types alone", "mod a { pub(crate) mod b {} pub fn b() {} } pub use a::b::{self as c};", "too_wide")
crate("one of a list", "mod a { pub fn f() {} pub(crate) fn g() {} } pub use a::{f, g};", "resolved", "too_wide")
crate("what is used of it is not wider", "mod a { pub use self::c as b; mod c { pub fn f() {} } } use a::b::f;", "too_wide", "private")
crate("what is used of it is found", "mod a { pub(crate) fn f() {} } mod b { pub use super::a::f; } use b::f;", "too_wide", "resolved")
crate("a struct whose constructor is narrower", "mod a { pub struct S(u8); } pub use a::S as T;", "resolved")
crate("two ways, one wide enough", "mod a { pub fn f() {} } mod b { use crate::a::*; pub use crate::a::*; } pub use b::f;", "resolved", "resolved", "resolved")
crate("what is not seen is not told", f"{MAKE} mod a {{ pub(crate) fn f() {{}} make! {{ pub mod f {{}} }} }} pub use a::f;", "resolved")
crate("variants of a private enum", "enum E { A } pub use self::E::A;", "unknown", refused="E0364")
crate("an enum", "enum E { A } pub use self::E as F; mod a { pub trait T {} pub(crate) trait U {} } pub use a::{T, U};", "too_wide", "resolved", "too_wide")

# ---- without a name
crate("the crate", "use crate; mod a { use crate; use {crate}; }", *["nameless"] * 3)
crate("the crate in a list", "use crate::{self}; mod a { use crate::{self, a as b}; }", "nameless", "nameless", "resolved")
crate("self", "mod a { use self; use {self}; use self::{self}; }", *["nameless"] * 3)
crate("super", "mod a { use super; use {super}; use super::{self}; mod b { use super::super; use self::super; use super::{super}; } }", *["nameless"] * 6)
crate("a super above the root without a name", "use super; use super::{self};", "nameless/unresolved", "nameless/unresolved")
crate("with a name beside", "mod a { pub fn f() {} use super::{self, a as b}; use super::{self as c}; }", "nameless", "resolved", "resolved")
crate("self of a plain list", "use {self}; use {self as k};", "nameless", "resolved", edition="2015")

# ---- texts
crate("columns count characters", "/* é😀 */ use crate::none; mod a { pub fn f() {} } /* ü */ use a::{f, /* é */ g};", "unresolved", "resolved", "unresolved")
crate("carriage returns", "mod a {\r\n    pub fn f() {}\r\n}\r\nuse a::{\r\n    f,\r\n    g,\r\n};\r\n", "resolved", "unresolved")
crate("comments in a path", "mod a { pub fn f() {} } use crate /* a */ :: a // b\n :: f; use crate::/* c */a::{/* d */ g /* e */ as /* f */ h};",
      "resolved", "unresolved")
crate("attributes and visibilities in front",
      "mod a { pub fn f() {} }\n#[allow(unused_imports)]\n#[doc(inline)]\npub use a::f;\n/// Doc.\npub(crate) use a::g;\n", "resolved", "unresolved")
crate("a script's first line", "#!/usr/bin/env run\nuse crate::none;\n", "unresolved")
crate("a root in a folder", {"src/main.rs": "mod a; use a::f; fn main() {}", "src/a.rs": "pub fn f() {} use crate::none;"}, "resolved", "unresolved")
EVEN, ALL = " ".join(f"pub fn f{k}() {{}}" for k in range(0, 200, 2)), ", ".join(f"f{k}" for k in range(200))
crate("many imports", f"mod a {{ {EVEN} }} use a::{{{ALL}}};", *["resolved", "unresolved"] * 100)

# ---- what they lead to
crate("items of each kind", "mod a { pub mod b {} pub struct S { f: u8 } pub enum E { V } pub trait T {} pub fn f() {} pub const C: u8 = 0; pub static X: u8 = 0; "
      "pub type A = u8; pub union U { f: u8 } #[macro_export] macro_rules! m { () => {} } } use a::{b, S, E, T, f, C, X, A, U}; use crate::m as n;", *["resolved"] * 10,
      leads=["mod crate::a::b", "struct crate::a::S", "enum crate::a::E", "trait crate::a::T", "fn crate::a::f", "const crate::a::C", "static crate::a::X",
             "type crate::a::A", "union crate::a::U", "macro_rules crate::a::m"])
crate("a name in two namespaces", "mod a { pub mod b {} pub fn b() {} pub struct S; pub struct T(pub u8); } use a::{b, S, T}; use a::b::{self as c};", *["resolved"] * 4,
      leads=["fn crate::a::b, mod crate::a::b", "struct crate::a::S", "struct crate::a::T", "mod crate::a::b"])
crate("through other imports", "mod a { pub use self::b::f as g; pub mod b { pub fn f() {} } } mod c { pub use super::a::*; } use a::g; use c::g as h; use c::b::f;",
      *["resolved"] * 5, leads=["fn crate::a::b::f", "mod crate::a", "fn crate::a::b::f", "fn crate::a::b::f", "fn crate::a::b::f"])
crate("globs", "mod a { pub mod b {} } use a::*; use self::b::*; mod c { use super::*; use crate::*; }", *["resolved"] * 4,
      leads=["mod crate::a", "mod crate::a::b", "mod crate", "mod crate"])
crate("modules around", "use crate as r; mod a { use super as p; use self as s; mod b { use super::super as q; use q::a as t; } }", *["resolved"] * 5,
      leads=["mod crate", "mod crate", "mod crate::a", "mod crate", "mod crate::a"])
crate("what is seen beside what is not", f"{MAKE} mod a {{ pub fn f() {{}} make! {{ pub mod f {{}} }} }} use a::f; use a::g;", "resolved", "unknown", refused="E0432",
      leads=["fn crate::a::f", ""])
crate("what is not seen", "mod a { pub enum E { V } } use a::E::V; use a::E::*; use std::fmt;", "unknown", "resolved", "unknown", leads=["", "enum crate::a::E", ""])
crate("what leads nowhere", "mod a { fn f() {} } use a::f; use a::g; use a;", "private", "unresolved", "resolved", refused="E0255", leads=["", "", "mod crate::a"])
crate("too wide and without a name", "mod a { pub(crate) fn f() {} use super; } pub use a::f;", "nameless", "too_wide", leads=["mod crate", "fn crate::a::f"])
crate("items of an extern block", 'mod a { unsafe extern "C" { pub fn f(); pub static X: u8; } } use a::{f, X};', "resolved", "resolved",
      leads=["fn crate::a::f", "static crate::a::X"])
crate("the one that no cfg disables", "mod a { #[cfg(any())] pub fn f() {} #[cfg(all())] pub fn f() {} } use a::f;", "resolved", leads=["fn crate::a::f"])
crate("raw names", {"lib.rs": "mod r#type; use r#type::{r#fn, r#mod};", "type.rs": "pub fn r#fn() {} pub mod r#mod {}"}, "resolved", "resolved",
      leads=["fn crate::r#type::r#fn", "mod crate::r#type::r#mod"])
crate("an item of two modules", {"lib.rs": '#[path = "x.rs"] mod a; #[path = "x.rs"] mod b; use a::f; use b::{f as g, m};', "x.rs": "pub fn f() {} pub mod m {}"},
      *["resolved"] * 3, leads=["fn crate::a::f", "fn crate::b::f", "mod crate::b::m"])

# ---- the imports of a text
SPACE = re.compile(r"\s+|//[^\n]*|/\*.*?\*/", re.S)
TOKEN = re.compile(SPACE.pattern + r"|r(#*)\".*?\"\1|\"(?:[^\"\\]|\\.)*\"|'(?:[^'\\]|\\.)'|'\w+|(?:r#)?\w+|::|.", re.S)
CLOSED = {"(": ")", "[": "]", "{": "}"}


def tokens_of(text):
    """The tokens of a text, each with where it begins and ends."""
    first = re.match(r"#![^\[\n]*\n", text)
    at = first.end() if first else 0
    return [(it.group(), it.start(), it.end()) for it in TOKEN.finditer(text, at) if not SPACE.fullmatch(it.group())]


def behind(tokens, at):
    """Behind the brackets that open here."""
    deep = 0
    while True:
        deep += (tokens[at][0] in CLOSED) - (tokens[at][0] in CLOSED.values())
        at += 1
        if not deep:
            return at


def read_tree(tokens, at, around, leaves):
    """Reads a use tree: each leaf with the spans that lead to it."""
    begin = tokens[at][1]
    while tokens[at][0] not in (",", ";", "{", "}"):
        at += 1
    if tokens[at][0] != "{":
        leaves.append([*around, (begin, tokens[at - 1][2])])
        return at
    around = [*around, (begin, tokens[at][1])]
    at += 1
    while tokens[at][0] != "}":
        at = read_tree(tokens, at, around, leaves)
        at += tokens[at][0] == ","
    return at + 1


def behind_item(tokens, at):
    while tokens[at][0] not in ("{", ";"):
        at = behind(tokens, at) if tokens[at][0] in CLOSED else at + 1
    return at + 1 if tokens[at][0] == ";" else behind(tokens, at)


def read_item(tokens, at, found):
    """Reads an item; those of a module are read as the next ones."""
    first = tokens[at][1]
    while tokens[at][0] == "#":
        at = behind(tokens, at + 2 if tokens[at + 1][0] == "!" else at + 1)
        if at == len(tokens):
            return at
    if tokens[at][0] == "pub":
        at = behind(tokens, at + 1) if tokens[at + 1][0] == "(" else at + 1
    words, leaves = [it[0] for it in tokens[at:at + 3]], []
    if words[0] in ("}", ";"):
        return at + 1
    if words[0] == "mod" and words[2] == "{":
        return at + 3
    end = behind_item(tokens, at)
    if words[0] == "use":
        read_tree(tokens, at + 1, [], leaves)
        end = next(k for k in range(at, len(tokens)) if tokens[k][0] == ";") + 1
    elif words[:2] == ["extern", "crate"]:
        leaves.append([(tokens[at][1], tokens[end - 1][2])])
    found.extend((spans, (first, tokens[end - 1][2]), words[0] == "extern") for spans in leaves)
    return end


def place(text, at):
    return text.count("\n", 0, at) + 1, at - text.rfind("\n", 0, at)


class Import:
    def __init__(self, file, text, spans, item, is_extern, verdict):
        self.file, self.item, self.is_extern = file, item, is_extern
        self.spans = [(place(text, begin), place(text, end)) for begin, end in spans]
        self.verdicts = [set(word.split("/")) for word in verdict.split()]
        self.place = file, *place(text, spans[-1][0])

    def is_told(self):
        return any(words <= TOLD for words in self.verdicts)

    def may_be_told(self):
        return any(words & TOLD for words in self.verdicts)

    def is_follower(self):
        return self.verdicts == [{"follows"}]


def imports_of(case):
    """The imports of a crate with their verdicts, and what is wrong with the crate as it is written."""
    found = []
    for file, text in case.files.items():
        tokens, at, of_file = tokens_of(text), 0, []
        while file.endswith(".rs") and at < len(tokens):
            at = read_item(tokens, at, of_file)
        found += [(file, text, *it) for it in of_file]
    if len(found) != len(case.verdicts):
        return [], [f"has {len(found)} imports and {len(case.verdicts)} verdicts"]
    return [Import(*it, verdict) for it, verdict in zip(found, case.verdicts)], []


# ---- the program
# What is said of an import that is told.
WORDS = {"this import leads to nothing": {"unresolved", "follows"}, "this import names what it does not see": {"private"},
         "what this import names is seen by fewer than the import": {"too_wide"}, "this import has no name": {"nameless"}}
# And what is said of each import where all are listed.
VERDICTS = {"resolved": {"resolved"}, "unknown": {"unknown"}, "unresolved": {"unresolved", "follows"}, "private": {"private"}, "too wide": {"too_wide"},
            "nameless": {"nameless"}}
OF_MODULES = re.compile(r" has (no file|two files): | is a file that it stands in: ")


def ran(case, folder, *words):
    """What the program writes of the crate."""
    edition = [] if case.is_package else ["--edition", case.edition]
    words = [PROGRAM, *words, *edition, *case.options, "--crate", "." if case.is_package else case.roots[0]]
    done = subprocess.run(words, cwd=folder, capture_output=True, text=True, timeout=120)
    return done.stdout.splitlines(), done.stderr.splitlines()


def place_in(file, line, column):
    return os.path.normpath(file), int(line), int(column)


def rows_of(case, folder):
    """The lines of the imports that the program tells, by their places, and the others."""
    lines, errors = ran(case, folder, "check")
    rows, others = {}, []
    for line in lines:
        *where, said = line.split(":", 3)
        if said[1:] in WORDS:
            rows.setdefault(place_in(*where), []).append(WORDS[said[1:]])
        elif not OF_MODULES.search(said):
            others.append(line)
    return rows, others + errors


def allowed(case, it):
    """What may be said of an import, by the modules of its file."""
    return [words | {"unresolved"} if case.is_premised and "unknown" in words else words for words in it.verdicts]


def verdicts_of(case, imports, folder):
    """What is wrong with what the program says: an import of a file that is several modules has a line for each of them."""
    rows, others = rows_of(case, folder)
    left = dict(rows)
    for it in imports:
        told = left.pop(it.place, [])
        verdicts = allowed(case, it)
        most, least = sum(bool(words & TOLD) for words in verdicts), sum(words <= TOLD for words in verdicts)
        if not least <= len(told) <= most or not all(any(words & said for words in verdicts) for said in told):
            yield f"{it.place}: {told}, expected {it.verdicts}"
    if left or others and not case.refused:
        yield f"more is told: {sorted(left)} {others}"
    if not others:
        yield from leads_of(case, imports, folder, rows)


# ---- and what they lead to
def is_written_there(target, folder):
    """Whether a target is declared where it is said to be: the root at the top of its file, all else at its name."""
    with open(os.path.join(folder, target["file"]), newline="", encoding="utf-8") as it:
        line = it.read().split("\n")[target["line"] - 1]
    if target["path"] == "crate":
        return (target["line"], target["column"]) == (1, 1)
    return line[target["column"] - 1:].startswith(target["path"].rsplit("::", 1)[1])


def leads_of(case, imports, folder, told):
    """What is wrong with the list of what the imports lead to, by what is told of some."""
    lines, errors = ran(case, folder, "imports", "--resolve", "--json")
    if errors == ["itemtree: imports: not resolved, because a use begins with ::{"]:
        return
    rows = {}
    for row in map(json.loads, lines):
        rows.setdefault(place_in(row["file"], row["line"], row["column"]), []).append(row)
    for number, it in enumerate(imports):
        found = rows.pop(it.place, [])
        verdicts = [words for words in allowed(case, it) if words != {"absent"} and not it.is_extern]
        if not found and all("absent" in words for words in verdicts):
            continue
        if len(found) != len(verdicts) or not all(words & VERDICTS[row["verdict"]] for words, row in zip(verdicts, found)):
            yield f"{it.place}: {[row['verdict'] for row in found]}, expected {it.verdicts}"
        if [VERDICTS[row["verdict"]] for row in found if VERDICTS[row["verdict"]] & TOLD] != told.get(it.place, []):
            yield f"{it.place}: {found}, where check tells {told.get(it.place)}"
        for row in found:
            leads = sorted(f"{target['kind']} {target['path']}" for target in row["targets"])
            may_lead = {row["verdict"] in ("resolved", "too wide"), row["verdict"] in ("resolved", "too wide", "nameless")}
            if bool(leads) not in may_lead or not all(is_written_there(target, folder) for target in row["targets"]):
                yield f"{it.place}: {row}"
            if case.leads and ", ".join(leads) != case.leads[number]:
                yield f"{it.place}: {leads}, expected {case.leads[number]}"
    if rows or errors:
        yield f"more is listed: {sorted(rows)} {errors}"
    only, _ = ran(case, folder, "imports", "--unresolved", "--json")
    if only != [line for line in lines if VERDICTS[json.loads(line)["verdict"]] & TOLD]:
        yield f"--unresolved lists {only}"


# ---- rustc
def write(folder, files):
    for name, text in files.items():
        path = f"{folder}/{name}"
        os.makedirs(os.path.dirname(path), exist_ok=True)
        with open(path, "wb") as it:
            it.write(text.encode())


def compiled(folder, name, text):
    """Another crate, compiled once for all that use it."""
    kind = kind_of(text)
    ending = "so" if kind == "proc-macro" else "rmeta"
    path = f"{folder}/{name}{hash(text) % 10**9}/lib{name}.{ending}"
    if not os.path.exists(path):
        write(os.path.dirname(path), {"lib.rs": text})
        emit = [] if ending == "so" else ["--emit", "metadata"]
        words = [RUSTC, "--edition", "2021", "--crate-type", kind, "--crate-name", name, *emit, "-o", path, f"{os.path.dirname(path)}/lib.rs"]
        subprocess.run(words, check=True, capture_output=True)
    return path


def kind_of(text):
    return "proc-macro" if "extern crate proc_macro" in text else "bin" if "fn main" in text else "lib"


def errors_of(case, folder, kept):
    """What rustc refuses: the code, the message, and its place (file, begin, end)."""
    for root in case.roots:
        words = [RUSTC, "--edition", case.edition, "--crate-type", kind_of(case.files[root]), "--crate-name", "x", "--emit", "metadata",
                 "--error-format", "json", "-o", "x.rmeta", root]
        for cfg in case.cfgs:
            words += ["--cfg", cfg]
        for name, text in case.others.items():
            words += ["--extern", f"{name}={compiled(kept, name, text)}"]
        ran = subprocess.run(words, cwd=folder, capture_output=True, text=True)
        told = [json.loads(line) for line in ran.stderr.splitlines() if line.startswith("{")]
        for row in told:
            if row["level"] == "error" and row["spans"]:
                for it in [it for it in row["spans"] if it["is_primary"]]:
                    yield ((row["code"] or {}).get("code") or "", row["message"],
                           (os.path.normpath(it["file_name"]), (it["line_start"], it["column_start"]), (it["line_end"], it["column_end"])))
        if ran.returncode and not any(row["level"] == "error" and row["spans"] for row in told):
            yield "", ran.stderr, ("", (0, 0), (0, 0))


def is_at(it, where):
    file, begin, end = where
    return file == it.file and any(begin < last and first < end for first, last in it.spans)


def without(case, gone):
    """The files of a crate without these imports, so that all else stays where it is."""
    files = dict(case.files)
    for it in gone:
        begin, end = it.item
        text = files[it.file]
        files[it.file] = text[:begin] + re.sub(r"[^\n]", " ", text[begin:end]) + text[end:]
    return files


def left_followers(case, imports, folder, kept):
    """The followers that rustc does not refuse, also when what they follow is gone."""
    gone = [it for it in imports if it.is_told() and not it.is_follower()]
    left = [it for it in imports if it.is_follower()]
    while left:
        write(folder, without(case, gone))
        places = [where for _, _, where in errors_of(case, folder, kept)]
        refused = [it for it in left if any(is_at(it, where) for where in places)]
        if not refused:
            break
        gone += refused
        left = [it for it in left if it not in refused]
    return left


def rustc_of(case, imports, folder, kept):
    """Where rustc does not agree."""
    errors = list(errors_of(case, folder, kept))
    for it in imports:
        if it.is_told() and not it.is_follower() and not any(is_at(it, where) for _, _, where in errors):
            yield f"rustc takes {it.place}"
    unsaid = set(case.refused)
    for code, message, where in errors:
        at = [it for it in imports if is_at(it, where)]
        said = {word for word in case.refused if word == code or word in message}
        unsaid -= said
        if not said and not any(it.may_be_told() for it in at):
            yield f"rustc refuses {where}: {code} {message}"
    if unsaid:
        yield f"rustc does not refuse {sorted(unsaid)}"
    for it in left_followers(case, imports, folder, kept):
        yield f"rustc takes the follower {it.place}"


def check(case, kept):
    imports, wrong = imports_of(case)
    with tempfile.TemporaryDirectory() as folder:
        write(folder, case.files)
        if PROGRAM != "-":
            wrong += verdicts_of(case, imports, folder)
        if RUSTC and case.is_held and not wrong:
            wrong += rustc_of(case, imports, folder, kept)
    return wrong


def main():
    failed = 0
    with tempfile.TemporaryDirectory() as kept:
        for case in CASES:
            wrong = check(case, kept)
            failed += bool(wrong)
            for it in wrong:
                print(f"{case.what}: {it}")
    print(f"imports: {len(CASES) - failed} passed, {failed} failed")
    sys.exit(failed > 0)


main()

#!/usr/bin/env python3
"""Small crates, each with the modules that it has by the Reference: crates.py PROGRAM [RUSTC]

With a rustc, each crate is held against that too: the files that it reads are those of the modules, and it refuses a
crate exactly where a module has no file. Prints `crates: N passed, M failed`."""
import json
import os
import re
import subprocess
import sys
import tempfile

PROGRAM = os.path.abspath(sys.argv[1])
RUSTC = sys.argv[2] if len(sys.argv) > 2 else None
CASES = []


def crate(what, files, *modules, none=(), root="lib.rs", options=(), cfgs=()):
    """A crate: its files, its modules as `PATH FILE`, and those that have no file as `PATH: WHY`."""
    CASES.append((what, files, list(modules), list(none), root, list(options), cfgs))


# ---- files by their names
crate("no module", {"lib.rs": "fn f() {}"}, "crate lib.rs")
crate("an empty file", {"lib.rs": ""}, "crate lib.rs")
crate("a file beside the root", {"lib.rs": "mod a;", "a.rs": ""}, "crate lib.rs", "crate::a a.rs")
crate("a mod.rs", {"lib.rs": "mod a;", "a/mod.rs": ""}, "crate lib.rs", "crate::a a/mod.rs")
crate("a file in a file", {"lib.rs": "mod a;", "a.rs": "mod b;", "a/b.rs": ""},
      "crate lib.rs", "crate::a a.rs", "crate::a::b a/b.rs")
crate("a file in a mod.rs", {"lib.rs": "mod a;", "a/mod.rs": "mod b;", "a/b.rs": ""},
      "crate lib.rs", "crate::a a/mod.rs", "crate::a::b a/b.rs")
crate("a mod.rs in a file", {"lib.rs": "mod a;", "a.rs": "mod b;", "a/b/mod.rs": "mod c;", "a/b/c.rs": ""},
      "crate lib.rs", "crate::a a.rs", "crate::a::b a/b/mod.rs", "crate::a::b::c a/b/c.rs")
crate("modules in the order in which they are written", {"lib.rs": "mod b; fn f() {} mod a;", "a.rs": "", "b.rs": "mod c;", "b/c.rs": ""},
      "crate lib.rs", "crate::b b.rs", "crate::b::c b/c.rs", "crate::a a.rs")
crate("a root of another name", {"main.rs": "mod a;", "a.rs": "", "main/a.rs": ""}, "crate main.rs", "crate::a a.rs", root="main.rs")
crate("a root in a folder", {"src/lib.rs": "mod a;", "src/a.rs": "mod b;", "src/a/b.rs": ""},
      "crate src/lib.rs", "crate::a src/a.rs", "crate::a::b src/a/b.rs", root="src/lib.rs")
crate("a raw name", {"lib.rs": "mod r#type;", "type.rs": "mod b;", "type/b.rs": ""},
      "crate lib.rs", "crate::r#type type.rs", "crate::r#type::b type/b.rs")
crate("a folder that cargo could build in", {"lib.rs": "mod target;", "target/mod.rs": "mod a;", "target/a.rs": ""},
      "crate lib.rs", "crate::target target/mod.rs", "crate::target::a target/a.rs")
crate("a hidden folder", {"lib.rs": '#[path = ".hidden/a.rs"] mod a;', ".hidden/a.rs": ""}, "crate lib.rs", "crate::a .hidden/a.rs")
crate("visibilities and attributes", {"lib.rs": "/// Doc.\n#[allow(dead_code)]\npub(crate) mod a;\npub mod b;", "a.rs": "", "b.rs": ""},
      "crate lib.rs", "crate::a a.rs", "crate::b b.rs")
crate("inner documentation", {"lib.rs": "//! A crate.\nmod a;", "a.rs": "//! A module.\n#![allow(dead_code)]\n"}, "crate lib.rs", "crate::a a.rs")

# ---- inline modules
crate("an inline module", {"lib.rs": "mod a {}"}, "crate lib.rs", "crate::a lib.rs")
crate("a file in an inline module", {"lib.rs": "mod a { mod b; }", "a/b.rs": ""}, "crate lib.rs", "crate::a lib.rs", "crate::a::b a/b.rs")
crate("in two", {"lib.rs": "mod a { mod b { mod c; } }", "a/b/c.rs": "mod d;", "a/b/c/d.rs": ""},
      "crate lib.rs", "crate::a lib.rs", "crate::a::b lib.rs", "crate::a::b::c a/b/c.rs", "crate::a::b::c::d a/b/c/d.rs")
crate("in one of a file", {"lib.rs": "mod a;", "a.rs": "mod b { mod c; }", "a/b/c.rs": ""},
      "crate lib.rs", "crate::a a.rs", "crate::a::b a.rs", "crate::a::b::c a/b/c.rs")
crate("in one of a mod.rs", {"lib.rs": "mod a;", "a/mod.rs": "mod b { mod c; }", "a/b/c.rs": ""},
      "crate lib.rs", "crate::a a/mod.rs", "crate::a::b a/mod.rs", "crate::a::b::c a/b/c.rs")
crate("an inline module of a raw name", {"lib.rs": "mod r#in { mod b; }", "in/b.rs": ""},
      "crate lib.rs", "crate::r#in lib.rs", "crate::r#in::b in/b.rs")
crate("two inline modules", {"lib.rs": "mod a { mod x; } mod b { mod x; }", "a/x.rs": "", "b/x.rs": ""},
      "crate lib.rs", "crate::a lib.rs", "crate::a::x a/x.rs", "crate::b lib.rs", "crate::b::x b/x.rs")

# ---- paths
crate("a path", {"lib.rs": '#[path = "b.rs"] mod a;', "b.rs": ""}, "crate lib.rs", "crate::a b.rs")
crate("a path into a folder", {"lib.rs": '#[path = "x/b.rs"] mod a;', "x/b.rs": ""}, "crate lib.rs", "crate::a x/b.rs")
crate("a file of a path looks beside itself", {"lib.rs": '#[path = "x/b.rs"] mod a;', "x/b.rs": "mod c;", "x/c.rs": ""},
      "crate lib.rs", "crate::a x/b.rs", "crate::a::c x/c.rs")
crate("a path in a file counts from the file's folder", {"lib.rs": "mod a;", "a.rs": '#[path = "x.rs"] mod b;', "x.rs": ""},
      "crate lib.rs", "crate::a a.rs", "crate::a::b x.rs")
crate("a path in a mod.rs", {"lib.rs": "mod a;", "a/mod.rs": '#[path = "x.rs"] mod b;', "a/x.rs": ""},
      "crate lib.rs", "crate::a a/mod.rs", "crate::a::b a/x.rs")
crate("a path in an inline module", {"lib.rs": 'mod a { #[path = "x.rs"] mod b; }', "a/x.rs": ""},
      "crate lib.rs", "crate::a lib.rs", "crate::a::b a/x.rs")
crate("a path in an inline module of a file", {"lib.rs": "mod a;", "a.rs": 'mod i { #[path = "x.rs"] mod b; }', "a/i/x.rs": ""},
      "crate lib.rs", "crate::a a.rs", "crate::a::i a.rs", "crate::a::i::b a/i/x.rs")
crate("a path of an inline module is a folder", {"lib.rs": '#[path = "x"] mod a { mod b; }', "x/b.rs": ""},
      "crate lib.rs", "crate::a lib.rs", "crate::a::b x/b.rs")
crate("of one in a file, from the file's folder", {"lib.rs": "mod a;", "a.rs": '#[path = "x"] mod i { mod b; }', "x/b.rs": ""},
      "crate lib.rs", "crate::a a.rs", "crate::a::i a.rs", "crate::a::i::b x/b.rs")
crate("an inner path of an inline module", {"lib.rs": 'mod a { #![path = "x"] mod b; }', "x/b.rs": ""},
      "crate lib.rs", "crate::a lib.rs", "crate::a::b x/b.rs")
crate("the first of two paths", {"lib.rs": '#[path = "b.rs"] #[path = "c.rs"] mod a;', "b.rs": "", "c.rs": ""}, "crate lib.rs", "crate::a b.rs")
crate("a path with dots", {"src/lib.rs": '#[path = "../x/./b.rs"] mod a;', "x/b.rs": "mod c;", "x/c.rs": ""},
      "crate src/lib.rs", "crate::a x/b.rs", "crate::a::c x/c.rs", root="src/lib.rs")
crate("a path above the root", {"src/lib.rs": '#[path = "../b.rs"] mod a;', "b.rs": ""}, "crate src/lib.rs", "crate::a b.rs", root="src/lib.rs")
crate("a path in a raw string", {"lib.rs": '#[path = r"b.rs"] mod a;', "b.rs": ""}, "crate lib.rs", "crate::a b.rs")
crate("a path without .rs", {"lib.rs": '#[path = "b.txt"] mod a;', "b.txt": "mod c;", "c.rs": ""},
      "crate lib.rs", "crate::a b.txt", "crate::a::c c.rs")
crate("one file as two modules", {"lib.rs": '#[path = "b.rs"] mod a; mod b;', "b.rs": "mod c;", "c.rs": "", "b/c.rs": ""},
      "crate lib.rs", "crate::a b.rs", "crate::a::c c.rs", "crate::b b.rs", "crate::b::c b/c.rs")
crate("a path to a mod.rs", {"lib.rs": '#[path = "x/mod.rs"] mod a;', "x/mod.rs": "mod b;", "x/b.rs": ""},
      "crate lib.rs", "crate::a x/mod.rs", "crate::a::b x/b.rs")

# ---- modules that have no file
crate("no file", {"lib.rs": "mod a;"}, "crate lib.rs", none=["crate::a has no file: a.rs, a/mod.rs"])
crate("two files", {"lib.rs": "mod a;", "a.rs": "", "a/mod.rs": ""}, "crate lib.rs", none=["crate::a has two files: a.rs, a/mod.rs"])
crate("no file at a path", {"lib.rs": '#[path = "x.rs"] mod a;', "a.rs": ""}, "crate lib.rs", none=["crate::a has no file: x.rs"])
crate("an empty path", {"lib.rs": '#[path = ""] mod a;', "a.rs": ""}, "crate lib.rs", none=["crate::a has no file: "])
crate("no file in a file", {"lib.rs": "mod a;", "a.rs": "mod b;", "b.rs": ""}, "crate lib.rs", "crate::a a.rs",
      none=["crate::a::b has no file: a/b.rs, a/b/mod.rs"])
crate("the file itself", {"lib.rs": '#[path = "lib.rs"] mod a;'}, "crate lib.rs", none=["crate::a is a file that it stands in: lib.rs"])
crate("a circle of two", {"lib.rs": "mod a;", "a.rs": '#[path = "b.rs"] mod b;', "b.rs": '#[path = "a.rs"] mod a;'},
      "crate lib.rs", "crate::a a.rs", "crate::a::b b.rs", none=["crate::a::b::a is a file that it stands in: a.rs"])
crate("a folder in place of a file", {"lib.rs": "mod a;", "a.rs/x.rs": ""}, "crate lib.rs", none=["crate::a has no file: a.rs, a/mod.rs"])
crate("what follows is found all the same", {"lib.rs": "mod a; mod b;", "b.rs": ""}, "crate lib.rs", "crate::b b.rs",
      none=["crate::a has no file: a.rs, a/mod.rs"])

# ---- cfgs
crate("a disabled module", {"lib.rs": "#[cfg(windows)] mod a; mod b;", "b.rs": ""}, "crate lib.rs", "crate::b b.rs")
crate("one that the host enables", {"lib.rs": "#[cfg(unix)] mod a;", "a.rs": ""}, "crate lib.rs", "crate::a a.rs")
crate("a disabled inline module", {"lib.rs": "#[cfg(any())] mod a { mod b; }"}, "crate lib.rs")
crate("a file that its own cfg disables", {"lib.rs": "mod a;", "a.rs": "#![cfg(windows)] mod b;"}, "crate lib.rs")
crate("a path under a cfg", {"lib.rs": '#[cfg_attr(unix, path = "u.rs")] #[cfg_attr(windows, path = "w.rs")] mod a;', "u.rs": ""},
      "crate lib.rs", "crate::a u.rs")
crate("one of two by a cfg", {"lib.rs": '#[cfg(unix)] #[path = "u.rs"] mod a; #[cfg(not(unix))] #[path = "w.rs"] mod a;', "u.rs": ""},
      "crate lib.rs", "crate::a u.rs")
crate("a cfg that is given", {"lib.rs": "#[cfg(x)] mod a; #[cfg(unix)] mod b;", "a.rs": ""}, "crate lib.rs", "crate::a a.rs",
      options=["--cfg", "x"], cfgs=None)
crate("beside those of the host", {"lib.rs": "#[cfg(x)] mod a; #[cfg(unix)] mod b;", "a.rs": "", "b.rs": ""},
      "crate lib.rs", "crate::a a.rs", "crate::b b.rs", options=["--host-cfg", "--cfg", "x"], cfgs=["x"])

# ---- texts
crate("a mod in a body is none", {"lib.rs": "fn f() { mod a {} }"}, "crate lib.rs")
crate("a byte order mark", {"lib.rs": "\ufeffmod a;", "a.rs": ""}, "crate lib.rs", "crate::a a.rs")
crate("carriage returns", {"lib.rs": "mod a;\r\nmod b {\r\n    mod c;\r\n}\r\n", "a.rs": "", "b/c.rs": ""},
      "crate lib.rs", "crate::a a.rs", "crate::b lib.rs", "crate::b::c b/c.rs")
crate("a comment in front", {"lib.rs": "/* mod x; */ mod a; // mod y;", "a.rs": ""}, "crate lib.rs", "crate::a a.rs")


def modules_of(case, folder):
    """The modules that the program lists, and what it says of those without a file."""
    what, files, modules, none, root, options, cfgs = case
    ran = subprocess.run([PROGRAM, "modules", *options, root], cwd=folder, capture_output=True, text=True)
    listed = [re.sub(r"^.*?:\d+:\d+: ", "", line) for line in ran.stdout.splitlines()]
    missing = [re.sub(r"^.*?:\d+:\d+: ", "", line) for line in ran.stderr.split("\n") if line]
    wrong = []
    if listed != modules:
        wrong.append(f"modules {listed}")
    if missing != none:
        wrong.append(f"without a file {missing}")
    if ran.returncode != (1 if none else 0):
        wrong.append(f"status {ran.returncode}")
    return wrong


def rustc_of(case, folder):
    """What rustc says."""
    what, files, modules, none, root, options, cfgs = case
    if cfgs is None:
        return []
    words = [RUSTC, "--edition", "2021", "--crate-type", "lib", "--emit", "metadata,dep-info", "--out-dir", "out", "--crate-name", "x", root]
    os.mkdir(f"{folder}/out")
    for cfg in cfgs:
        words += ["--cfg", cfg]
    ran = subprocess.run(words, cwd=folder, capture_output=True, text=True)
    if none:
        return [] if ran.returncode else ["rustc takes it"]
    if ran.returncode:
        return ["rustc refuses it: " + ran.stderr]
    with open(f"{folder}/out/x.d") as it:
        read = {os.path.normpath(name.rstrip(":")) for name in it.read().split("\n") if name.endswith(".rs:") or name.endswith(".txt:")}
    ours = {line.rsplit(" ", 1)[1] for line in modules}
    return [] if ours <= read else [f"rustc reads {sorted(read)}"]


def run(folder, *words):
    ran = subprocess.run([PROGRAM, *words], cwd=folder, capture_output=True, text=True, timeout=120)
    return ran.stdout, ran.stderr, ran.returncode


def write(folder, files):
    for name, text in files.items():
        path = f"{folder}/{name}"
        os.makedirs(os.path.dirname(path), exist_ok=True)
        with open(path, "wb") as it:
            it.write(text if isinstance(text, bytes) else text.encode())


# ---- what cannot be written as a case: each gives what is wrong with it

def links(folder):
    write(folder, {"lib.rs": "mod a; mod b; mod c;", "x/real.rs": "mod d;", "y/mod.rs": "mod e;", "y/e.rs": "", "a/d.rs": ""})
    os.symlink("x/real.rs", f"{folder}/a.rs")
    os.symlink("y", f"{folder}/b")
    os.symlink("c.rs", f"{folder}/c.rs")
    out, err, status = run(folder, "modules", "lib.rs")
    yield out == ("lib.rs:1:1: crate lib.rs\nlib.rs:1:5: crate::a a.rs\na.rs:1:5: crate::a::d a/d.rs\n"
                  "lib.rs:1:12: crate::b b/mod.rs\nb/mod.rs:1:5: crate::b::e b/e.rs\n"), "links lead to files", out
    yield err == "lib.rs:1:19: crate::c has no file: c.rs, c/mod.rs\n" and status == 1, "a link to itself is no file", err


def no_files(folder):
    write(folder, {"lib.rs": 'mod a; #[path = "%s"] mod b; #[path = "/nowhere/c.rs"] mod c; #[path = "d\\0.rs"] mod d;' % ("x" * 100_000)})
    os.mkfifo(f"{folder}/a.rs")
    out, err, status = run(folder, "modules", "lib.rs")
    yield err.count(" has no file: ") == 4 and status == 1, "a pipe, an endless path, an absolute one and one with a zero", err[:300]


def unread(folder):
    write(folder, {"lib.rs": "mod a; mod b;", "a.rs": b"mod c;\n\xff", "b.rs": ""})
    out, err, status = run(folder, "modules", "lib.rs")
    yield status == 2 and "a.rs: not UTF-8 at line 2, column 1" in err, "a file that is no text is named", err
    yield out.splitlines()[1:] == ["lib.rs:1:5: crate::a a.rs", "lib.rs:1:12: crate::b b.rs"], "and is a module", out
    out, err, status = run(folder, "modules", "none.rs")
    yield out == "" and status == 2 and err.startswith("itemtree: none.rs: "), "a root file that is not there", err


def deep(folder):
    for depth in (128, 129):
        top = f"{folder}/{depth}"
        write(top, {f"m{k}.rs": f'#[path = "m{k + 1}.rs"] mod m;' for k in range(depth)} | {f"m{depth}.rs": ""})
        out, err, status = run(top, "modules", "m0.rs")
        yield len(out.splitlines()) == min(depth, 128) + 1, f"{depth} deep", out[-200:]
        yield ("stands in too many files" in err) == (depth > 128), f"{depth} deep", err


def packages(folder):
    """What a Cargo.toml tells."""
    write(folder, {"Cargo.toml": '[package]\nname = "p-q"\nedition = "2015"\n[features]\ndefault = ["a"]\na = []\nb = ["c"]\nc = []\n',
                   "src/lib.rs": '#[cfg(feature = "a")] mod a; #[cfg(feature = "b")] mod b; #[cfg(feature = "c")] mod c; mod async;',
                   "src/a.rs": "", "src/b.rs": "", "src/c.rs": "", "src/async.rs": "", "src/main.rs": "", "src/bin/one.rs": "mod two;", "src/bin/two.rs": "",
                   "src/bin/three/main.rs": "mod four;", "src/bin/three/four.rs": ""})
    def files(*words):
        return sorted({line.rsplit(" ", 1)[1] for line in run(folder, "modules", *words, ".")[0].splitlines()})
    binaries = ["src/bin/one.rs", "src/bin/three/four.rs", "src/bin/three/main.rs", "src/bin/two.rs"]
    rest = binaries + ["src/lib.rs", "src/main.rs"]
    yield files() == ["src/a.rs", "src/async.rs"] + rest, "the default feature", files()
    yield files("--features", "b") == ["src/a.rs", "src/async.rs", "src/b.rs"] + binaries + ["src/c.rs", "src/lib.rs", "src/main.rs"], "a feature enables another", files("--features", "b")
    yield files("--no-default-features") == ["src/async.rs"] + rest, "no default", files("--no-default-features")
    yield files("--all-features") == files("--features", "b,c"), "all", files("--all-features")
    yield run(folder, "modules", "--features", "d", ".") == ("", "itemtree: Cargo.toml: no feature d\n", 2), "an unknown feature", run(folder, "modules", "--features", "d", ".")
    yield run(folder, "modules", "--orphans", ".")[:1] == ("",), "no orphans", run(folder, "modules", "--orphans", ".")
    write(folder, {"w/Cargo.toml": '[workspace]\nmembers = ["m"]\n[workspace.package]\nedition = "2015"\n', "w/m/Cargo.toml": '[package]\nname = "m"\nedition.workspace = true\n',
                   "w/m/src/lib.rs": "mod async;", "w/m/src/async.rs": "", "n/Cargo.toml": "[package]\nname = 1\n", "e/x.rs": "", "t/Cargo.toml": "[package\n"})
    yield run(folder, "modules", "w/m")[0].endswith("crate::async w/m/src/async.rs\n"), "the edition of a workspace", run(folder, "modules", "w/m")
    for top in ("n", "e", "t"):
        out, err, status = run(folder, "modules", top)
        yield out == "" and status == 2 and err.startswith(f"itemtree: {top}/Cargo.toml: "), "a manifest that tells nothing", err


# Manifests by the Cargo book: what one says, the files beside it, further words, and the files of the modules; or a fault.
NAMED = '[package]\nname = "p"\n'
MANIFESTS = [
    ("no table but the package's", NAMED, ["src/lib.rs"], [], ["src/lib.rs"]),
    ("a library and a binary", NAMED, ["src/lib.rs", "src/main.rs"], [], ["src/lib.rs", "src/main.rs"]),
    ("a library elsewhere", NAMED + '[lib]\npath = "l.rs"\n', ["l.rs", "src/lib.rs"], [], ["l.rs"]),
    ("a library of another name", NAMED + '[lib]\nname = "q"\n', ["src/lib.rs"], [], ["src/lib.rs"]),
    ("a library that is not there", NAMED + "[lib]\n", ["src/main.rs"], [], "the crate p has no root file"),
    ("a binary elsewhere", NAMED + '[[bin]]\nname = "b"\npath = "x/b.rs"\n', ["x/b.rs"], [], ["x/b.rs"]),
    ("a binary by its name", NAMED + '[[bin]]\nname = "b"\n', ["src/bin/b.rs"], [], ["src/bin/b.rs"]),
    ("a binary by its folder", NAMED + '[[bin]]\nname = "b"\n', ["src/bin/b/main.rs"], [], ["src/bin/b/main.rs"]),
    ("the binary of the package", NAMED + '[[bin]]\nname = "p"\n', ["src/main.rs"], [], ["src/main.rs"]),
    ("a binary that is not there", NAMED + '[[bin]]\nname = "b"\n', ["src/lib.rs"], [], "the crate b has no root file"),
    ("no binaries by their places", NAMED + 'autobins = false\n[[bin]]\nname = "b"\n', ["src/bin/b.rs", "src/bin/c.rs"], [], ["src/bin/b.rs"]),
    ("no crate", NAMED, ["x.rs"], [], "no crate of this package has a root file"),
    ("a workspace alone", '[workspace]\nmembers = ["m"]\n', ["m/src/lib.rs"], [], ""),
    ("an unknown edition", NAMED + 'edition = "2016"\n', ["src/lib.rs"], [], ""),
    ("a feature that enables itself", NAMED + '[features]\na = ["b"]\nb = ["a"]\n', ["src/lib.rs", "src/a.rs", "src/b.rs"], ["--features", "a"],
     ["src/lib.rs", "src/a.rs", "src/b.rs"]),
    ("an optional dependency", NAMED + '[dependencies]\na = { version = "1", optional = true }\n', ["src/lib.rs", "src/a.rs"], ["--features", "a"],
     ["src/lib.rs", "src/a.rs"]),
    ("one that a feature enables", NAMED + '[features]\nb = ["dep:a"]\n[dependencies]\na = { version = "1", optional = true }\n',
     ["src/lib.rs", "src/a.rs", "src/b.rs"], ["--features", "b"], ["src/lib.rs", "src/b.rs"]),
    ("a feature of a dependency", NAMED + '[features]\nb = ["a/c"]\n[dependencies]\na = { version = "1", optional = true }\n',
     ["src/lib.rs", "src/a.rs", "src/b.rs"], ["--features", "b"], ["src/lib.rs", "src/a.rs", "src/b.rs"]),
    ("a weak one", NAMED + '[features]\nb = ["a?/c"]\n[dependencies]\na = { version = "1", optional = true }\n',
     ["src/lib.rs", "src/a.rs", "src/b.rs"], ["--features", "b"], ["src/lib.rs", "src/b.rs"]),
    ("a feature that is none, in one", NAMED + '[features]\na = ["b"]\n', ["src/lib.rs", "src/a.rs"], ["--features", "a"], ["src/lib.rs", "src/a.rs"]),
]


def manifests(folder):
    modules = "".join(f'#[cfg(feature = "{name}")] mod {name};' for name in "ab")
    for at, (what, text, files, words, wanted) in enumerate(MANIFESTS):
        top = f"{folder}/{at}"
        write(top, {"Cargo.toml": text} | {name: "" if name.endswith(("/a.rs", "/b.rs")) and "src/lib.rs" in files else modules * ("lib" in name) for name in files})
        out, err, status = run(top, "modules", *words, ".")
        listed = [line.rsplit(" ", 1)[1] for line in out.splitlines()]
        if isinstance(wanted, list):
            yield listed == wanted and status == 0, what, (listed, err)
        else:
            yield out == "" and err.startswith("itemtree: Cargo.toml: ") and err.endswith(wanted + "\n") and status == 2, what, err


def many(folder):
    write(folder, {"lib.rs": "".join(f"mod m{k} {{}}\n" for k in range(100_000))})
    out, err, status = run(folder, "modules", "lib.rs")
    yield len(out.splitlines()) == 100_001 and status == 0, "100,000 modules", err
    yield out.endswith("lib.rs:100000:5: crate::m99999 lib.rs\n"), "the last of them", out[-100:]


def cases_of_letters(folder):
    write(folder, {"lib.rs": "mod a; mod A;", "a.rs": "", "A.rs": ""})
    out, err, status = run(folder, "modules", "lib.rs")
    yield out.splitlines()[1:] == ["lib.rs:1:5: crate::a a.rs", "lib.rs:1:12: crate::A A.rs"], "names that differ by case", out


def of_a_crate(folder):
    """The commands that take the files of a crate do as they do with its files."""
    write(folder, {"src/lib.rs": "mod b; mod a; mod none; fn f() {", "src/a.rs": "use x::y; fn f() {}", "src/b.rs": "struct S;", "src/c.rs": "fn f() {}"})
    files = ["src/lib.rs", "src/b.rs", "src/a.rs"]
    for words in (["outline"], ["find"], ["imports"], ["page"], ["tags", "-o", "-"]):
        name = ["f"] if words[0] == "find" else []
        yield run(folder, *words, "--host-cfg", *name, *files)[0] == run(folder, *words, "--crate", "src/lib.rs", *name)[0], f"{words[0]} --crate", words
    out, err, status = run(folder, "check", "--crate", "src/lib.rs")
    yield out == ("src/lib.rs:1:25: this item has no end\nsrc/lib.rs:1:32: nothing closes this bracket\n"
                  "src/lib.rs:1:19: crate::none has no file: src/none.rs, src/none/mod.rs\n") and status == 1, "check --crate", out
    yield run(folder, "check", "-q", "--crate", "src/lib.rs") == ("", "", 1), "check -q --crate", ""
    for words in (["outline", "--crate", "src/lib.rs", "src/a.rs"], ["outline", "--features", "x", "src/a.rs"], ["check", "--cfg", "x", "src/a.rs"], ["modules"]):
        yield run(folder, *words)[2] == 2, "a wrong command line", words


def orphans(folder):
    write(folder, {"lib.rs": "mod a; #[cfg(windows)] mod w;", "a.rs": "", "w.rs": "mod v;", "w/v.rs": "", "o.rs": "", "x/p.rs": ""})
    out, err, status = run(folder, "modules", "--orphans", "lib.rs")
    yield out == "o.rs\nx/p.rs\n" and status == 1, "files that no module is in", out
    out, err, status = run(folder, "modules", "--orphans", "--exclude", "x", "--exclude", "o.rs", "lib.rs")
    yield out == "" and status == 0, "none", out


def main():
    passed = failed = 0
    for check in (links, no_files, unread, deep, packages, manifests, many, cases_of_letters, of_a_crate, orphans):
        with tempfile.TemporaryDirectory() as folder:
            for is_right, what, got in check(folder):
                passed += is_right
                failed += not is_right
                if not is_right:
                    print(f"{check.__name__}: {what}: {got!r}")
    for case in CASES:
        with tempfile.TemporaryDirectory() as folder:
            write(folder, case[1])
            wrong = modules_of(case, folder) + (rustc_of(case, folder) if RUSTC else [])
        passed += not wrong
        failed += bool(wrong)
        for it in wrong:
            print(f"{case[0]}: {it}")
    print(f"crates: {passed} passed, {failed} failed")
    sys.exit(failed > 0)


main()

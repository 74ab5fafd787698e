#!/usr/bin/env python3
"""Runs a program on requests that are as deep as JSON allows, and on wide ones of n, 2n and 4n parts.

    deep_and_wide.py PROGRAM [--times N]

Each deep request is answered, and the one that is a level deeper is no JSON. Of each wide shape the three sizes are
answered, with exactly the lines that are wanted, on a stack of a megabyte, so that no width can drive a recursion. The
time of each is printed, and its growth from n to 4n; a failure is a wrong answer or a crash, and never a time. --times
makes each shape so many times as wide.
"""
import argparse
import json
import os
import resource
import subprocess
import sys

DEEPEST = 127
STACK = 1 << 20
# A run that takes longer is stopped, and is a failure.
LIMIT = 600


def request(items, show="page", **more):
    """A file of these items, shown."""
    edit = {"edit": "set_file", "file": 1, "syntax": {"root": "source_file", "items": items}}
    return {"crates": [{"root": 0}], "edits": [edit], "shows": [{"show": show, "crate": 0, "file": 1}], **more}


def conditional(cfg):
    """A function under a condition."""
    return request([{"is": "fn", "name": "f", "attrs": [{"meta": "cfg", "cfg": cfg}]}])


def function(number, vis="", attrs=()):
    """The lines of a function on the page."""
    return [*attrs, f"// AstId: Fn[0000, {number}]", f"{vis or 'pub(self)'} fn f;"]


def joined(items):
    """The lines of items with blanks between them."""
    lines = []
    for item in items:
        lines += [""] * bool(lines) + item
    return lines


# Deep shapes: the request of n levels, and the lines of its answer.

def deep_modules(n):
    item = {"is": "module", "name": "m"}
    for _ in range(n - 1):
        item = {"is": "module", "name": "m", "items": [item]}
    lines = []
    for level in range(n):
        lines += [f"{'    ' * level}// AstId: Module[0000, 0]", f"{'    ' * level}pub(self) mod m {{"]
    return request([item]), lines + ["    " * level + "}" for level in reversed(range(n))]


def deep_metas(n):
    meta = {"meta": "path", "path": ["plain", "a"]}
    for _ in range(n):
        meta = {"meta": "unsafe", "inner": meta}
    return request([{"is": "fn", "name": "f", "attrs": [meta]}]), function(0, attrs=["#[a]"])


def deep_cfg_attrs(n):
    meta = {"meta": "path", "path": ["plain", "a"]}
    for _ in range(n):
        meta = {"meta": "cfg_attr", "cfg": "true", "metas": [meta]}
    return request([{"is": "fn", "name": "f", "attrs": [meta]}]), function(0, attrs=["#[a]"])


def deep_conditions(n):
    cfg = "false"
    for _ in range(n):
        cfg = {"all": [cfg, "true"]}
    text = "all(" * n + "false" + ", true)" * n
    return conditional(cfg), function(0, attrs=[f"#[cfg({text})]"])


def deep_nots(n):
    cfg = "false" if n % 2 == 0 else "true"
    text = "not(" * n + cfg + ")" * n
    for _ in range(n):
        cfg = {"not": cfg}
    return conditional(cfg), function(0, attrs=[f"#[cfg({text})]"])


def deep_use_trees(n):
    tree = {"path": ["plain", "z"]}
    for _ in range(n):
        tree = {"path": ["plain", "p"], "list": [tree]}
    return request([{"is": "use", "tree": tree}], "imports"), ["Use[0000, 0]", f"{n} {'p::' * n}z plain"]


DEEP = [deep_modules, deep_metas, deep_cfg_attrs, deep_conditions, deep_nots, deep_use_trees]


# Wide shapes: the request of n parts, and the lines of its answer.

def use_tree_children(n):
    children = [{"path": ["plain", f"x{k}"]} for k in range(n)]
    asked = request([{"is": "use", "tree": {"path": ["plain", "a"], "list": children}}])
    asked["shows"].append({"show": "imports", "crate": 0, "file": 1})
    page = ["// AstId: Use[0000, 0]", "pub(self) use a::{" + ", ".join(f"x{k}" for k in range(n)) + "};"]
    return asked, page + ["Use[0000, 0]"] + [f"{k + 1} a::x{k} plain" for k in range(n)]


def items_of_a_file(n):
    return request([{"is": "fn", "name": "f", "number": k} for k in range(n)]), joined(map(function, range(n)))


def items_of_a_module(n):
    items = [{"is": "fn", "name": "f", "number": k} for k in range(n)]
    lines = ["// AstId: Module[0000, 0]", "pub(self) mod m {"]
    lines += [line and "    " + line for line in joined(map(function, range(n)))]
    return request([{"is": "module", "name": "m", "items": items}]), lines + ["}"]


def statements(n):
    asked = request([])
    stmts = [{"item": {"is": "fn", "name": "f", "number": k}} for k in range(n)] + ["other"] * n
    asked["edits"][0]["syntax"] = {"root": "macro_stmts", "stmts": stmts}
    return asked, joined(map(function, range(n)))


def visibilities(n):
    items = [{"is": "fn", "name": "f", "number": k, "vis": {"in": ["crate", f"m{k}"]}} for k in range(n)]
    return request(items), joined(function(k, f"pub(in crate::m{k})") for k in range(n))


def fields_of_a_struct(n):
    fields = [{"in": ["crate", f"m{k}"]} for k in range(n)]
    asked = request([{"is": "struct", "name": "S", "vis": "pub", "fields": fields}])
    return asked, ["// AstId: Struct[0000, 0]", "pub struct S { ... }"]


def attributes(n):
    attrs = [{"meta": "path", "path": ["plain", f"a{k}"]} for k in range(n)]
    return request([{"is": "fn", "name": "f", "attrs": attrs}]), function(0, attrs=[f"#[a{k}]" for k in range(n)])


def members_of_a_condition(n):
    cfg = {"any": [f"x{k}" for k in range(n)]}
    text = "any(" + ", ".join(f"x{k}" for k in range(n)) + ")"
    return conditional(cfg), function(0, attrs=[f"#[cfg({text})]"])


def names_of_a_path(n):
    asked = request([{"is": "use", "tree": {"path": ["plain", *["a"] * n]}}])
    return asked, ["// AstId: Use[0000, 0]", "pub(self) use " + "::".join(["a"] * n) + ";"]


def supers_of_a_path(n):
    asked = request([{"is": "use", "tree": {"path": ["super", n]}}], "imports")
    return asked, ["Use[0000, 0]", f"0 {'::'.join(['super'] * n)} plain"]


def characters_of_a_name(n):
    return request([{"is": "type_alias", "name": "a" * n}]), ["// AstId: TypeAlias[0000, 0]", f"pub(self) type {'a' * n};"]


def crates(n):
    asked = request([{"is": "fn", "name": "f"}])
    asked["crates"] = [{"root": 0}] * n
    asked["shows"] = [{"show": "page", "crate": k, "file": 1} for k in range(n)]
    return asked, function(0) * n


def files(n):
    asked = request([])
    edit = {"edit": "set_file", "syntax": {"root": "source_file", "items": [{"is": "fn", "name": "f"}]}}
    asked["edits"] = [{**edit, "file": n - k} for k in range(n)]
    asked["shows"] = [{"show": "tree", "crate": 0, "file": k + 1} for k in range(n)]
    return asked, [line for k in range(n) for line in [f"crate 0 file {k + 1} change {n - k}", *function(0)]]


def edits_of_a_file(n):
    asked = request([])
    asked["edits"] = [edit for k in range(n) for edit in request([{"is": "fn", "name": "f", "number": k}])["edits"]]
    asked["shows"] = [{"show": "tree", "crate": 0, "file": 1}]
    return asked, [f"crate 0 file 1 change {n}", *function(n - 1)]


def options_of_a_crate(n):
    asked = request([{"is": "fn", "name": "f", "attrs": [{"meta": "cfg", "cfg": f"x{n - 1}"}]}])
    asked["crates"] = [{"root": 0, "cfg": [f"x{k}" for k in range(n)]}]
    return asked, function(0)


def reserved_words(n):
    words = [f"x{k}" for k in range(n)] + ["f"]
    return request([{"is": "fn", "name": "f"}], edition={"reserved": words}), ["// AstId: Fn[0000, 0]", "pub(self) fn r#f;"]


def reserved_words_and_names(n):
    asked, lines = items_of_a_file(n)
    return {**asked, "edition": {"reserved": [f"x{k}" for k in range(n)]}}, lines


def skipped_names_and_metas(n):
    asked, lines = attributes(n)
    return {**asked, "skipped": [f"x{k}" for k in range(n)]}, lines


def options_and_conditions(n):
    asked = request([{"is": "fn", "name": "f", "attrs": [{"meta": "cfg_attr", "cfg": "a"}] * n}])
    asked["crates"] = [{"root": 0, "cfg": [f"x{k}" for k in range(n)]}]
    return asked, function(0)


def ignored_keys(n):
    return {**{f"x{k}": [k] for k in range(n)}, **request([{"is": "fn", "name": "f"}])}, function(0)


# Each with its n. Of the last three n words are looked up among n, so that their time grows with the square.
WIDE = [(use_tree_children, 25000), (items_of_a_file, 25000), (items_of_a_module, 25000), (statements, 25000),
        (visibilities, 12500), (fields_of_a_struct, 12500), (attributes, 25000), (members_of_a_condition, 25000),
        (names_of_a_path, 25000), (supers_of_a_path, 25000), (characters_of_a_name, 250000), (crates, 500), (files, 12500),
        (edits_of_a_file, 12500), (options_of_a_crate, 25000), (reserved_words, 25000), (ignored_keys, 25000),
        (reserved_words_and_names, 2500), (skipped_names_and_metas, 2500), (options_and_conditions, 2500)]


def depth(value):
    children = value.values() if isinstance(value, dict) else value if isinstance(value, list) else ()
    return max(map(depth, children), default=0) + isinstance(value, (dict, list))


def processor_seconds():
    """Of all programs that have ended."""
    used = resource.getrusage(resource.RUSAGE_CHILDREN)
    return used.ru_utime + used.ru_stime


class Runs:
    def __init__(self, program):
        self.program, self.passed, self.failed = os.path.abspath(program), 0, 0

    def run(self, name, asked, status, line, lines):
        """Runs the program, looks at its answer, and gives the seconds of the processor that it took."""
        wanted = status, "".join(text + "\n" for text in lines).encode(), line
        data = json.dumps(asked).encode()
        start = processor_seconds()
        try:
            done = subprocess.run([self.program], input=data, capture_output=True, timeout=LIMIT)
        except subprocess.TimeoutExpired:
            self.failed += 1
            print(f"{name}: not ended in {LIMIT} seconds")
            return LIMIT
        seconds = processor_seconds() - start
        if (done.returncode, done.stdout, done.stderr) == wanted:
            self.passed += 1
        else:
            self.failed += 1
            count = done.stdout.count(b"\n")
            print(f"{name}: status {done.returncode}, {count} lines of {len(lines)} wanted, {done.stderr[:200]!r}")
        return seconds

    def deep(self, shape):
        """The most levels that are read, and one more."""
        n = 1
        while depth(shape(n + 1)[0]) <= DEEPEST:
            n += 1
        name = shape.__name__
        self.run(f"{name}, {n} levels", *self.answered(shape(n)))
        self.run(f"{name}, {n + 1} levels", shape(n + 1)[0], 2, b"not JSON\n", [])
        print(f"{name:24} {n:>7} levels", flush=True)

    def wide(self, shape, n):
        name = shape.__name__
        seconds = [self.run(f"{name}, {size} parts", *self.answered(shape(size))) for size in (n, 2 * n, 4 * n)]
        times = "".join(f" {second:>7.3f}" for second in seconds)
        growth = seconds[2] / max(seconds[0], 0.001)
        print(f"{name:24} {n:>7} {4 * n:>7}{times} {growth:>7.1f}", flush=True)

    @staticmethod
    def answered(both):
        return both[0], 0, b"", both[1]


def main():
    parser = argparse.ArgumentParser(description=__doc__.split("\n")[0])
    parser.add_argument("program")
    parser.add_argument("--times", type=int, default=1, metavar="N")
    options = parser.parse_args()
    runs = Runs(options.program)
    if not os.access(runs.program, os.X_OK):
        print(f"no program is at {options.program}", file=sys.stderr)
        print("deep_and_wide: 0 passed, 1 failed")
        return 69
    resource.setrlimit(resource.RLIMIT_STACK, (STACK, STACK))
    for shape in DEEP:
        runs.deep(shape)
    print(f"{'processor seconds':24} {'n':>7} {'4n':>7} {'n':>7} {'2n':>7} {'4n':>7} {'growth':>7}")
    for shape, n in WIDE:
        runs.wide(shape, options.times * n)
    print(f"deep_and_wide: {runs.passed} passed, {runs.failed} failed")
    return 1 if runs.failed or not runs.passed else 0


if __name__ == "__main__":
    sys.exit(main())

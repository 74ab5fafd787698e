#!/usr/bin/env python3
"""Writes a request in the shape of real files to standard output.

    generate.py files N     N files of some fifty items at the top in one crate, each shown as a page and as its imports
    generate.py rising N    N files of one function, set in rising order; the first and the last are shown
    generate.py falling N   the same in falling order
    generate.py crates N    50 small files in N crates, each with its own options; one tree is shown
    --seed S                another request of the same shape (0 if absent)

The same arguments give the same bytes.
"""

import argparse
import json
import math
import random
import statistics
import sys

SYLLABLES = "ab ac al an ar at be ca ce co de di el en er ex fi fo ge ha in is ka le li lo ma me mi mo na ne no or pa pe po ra re ri ro sa se si so ta te ti to un ur va ve vi wa".split()
RESERVED = "as break const continue else enum extern false fn for if impl in let loop match mod move mut pub ref return static struct trait true type unsafe use where while abstract become box do final macro override priv typeof unsized virtual yield async await dyn try gen".split()
SKIPPED = "doc stable unstable target_feature allow expect warn deny forbid repr inline track_caller must_use".split()
FEATURES = ["full", "parsing", "printing", "derive", "std", "proc-macro", "fold", "visit"]
# How often each kind of item stands in files of published crates, in parts of a thousand.
KINDS = {"impl": 486, "fn": 241, "use": 119, "macro_call": 74, "module": 31, "macro_rules": 18, "struct": 16, "trait": 9, "type_alias": 3, "enum": 2, "extern_crate": 1}


class Files:
    def __init__(self, seed):
        self.random = random.Random(seed)
        self.number = 0

    def word(self):
        return "".join(self.random.choices(SYLLABLES, k=self.random.randint(2, 4)))

    def name(self):
        return "_".join(self.word() for _ in range(self.random.randint(1, 3)))

    def type_name(self):
        return "".join(self.word().capitalize() for _ in range(self.random.randint(1, 3)))

    def text(self, size):
        words = []
        while size > 0:
            words.append(self.random.choice([self.word(), "self .", "& mut", "(", ")", "{", "}", "::", "let", "->", ";"]))
            size -= len(words[-1]) + 1
        return " ".join(words)

    def body(self):
        """Most are short and a few long: 170 bytes in the middle, 300 on average."""
        return self.text(min(25000, int(self.random.lognormvariate(5.3, 1.1))))

    def path(self):
        front = self.random.choice([["plain"], ["plain"], ["crate"], ["super", self.random.randint(0, 2)]])
        return front + [self.name() for _ in range(self.random.randint(1, 3))]

    def attr(self):
        kind = self.random.random()
        if kind < 0.4:
            return {"meta": "cfg", "cfg": {"key": "feature", "value": self.random.choice(FEATURES)}}
        if kind < 0.5:
            return {"meta": "cfg", "cfg": {"not": {"any": [{"key": "feature", "value": "std"}, "unix"]}}}
        if kind < 0.7:
            return {"meta": "tokens", "path": ["plain", "derive"], "tokens": "(Clone, Copy)"}
        text = self.text(50)
        start = self.random.randint(0, 90000)
        value = {"rendered": json.dumps(text), "string": text, "span": [start, start + len(text) + 3]}
        return {"meta": "key_value", "path": ["plain", "doc"], "value": value}

    def attrs(self):
        counts = [0, 1, 2, 3, self.random.randint(4, 30)]
        return [self.attr() for _ in range(self.random.choices(counts, [310, 340, 325, 10, 15])[0])]

    def use_tree(self, depth=0):
        kind = self.random.random()
        if kind < 0.3 and depth < 3:
            return {"path": self.path(), "list": [self.use_tree(depth + 1) for _ in range(self.random.randint(1, 5))]}
        if kind < 0.4:
            return {"path": self.path(), "star": True}
        if kind < 0.5:
            return {"path": self.path(), "rename": self.random.choice(["_", self.name()])}
        return {"path": self.path()}

    def node(self, kind):
        self.number += 1
        item = {"is": kind, "hash": self.random.randint(0, 65535), "number": self.number % 100, "attrs": self.attrs()}
        if not item["attrs"]:
            del item["attrs"]
        return item

    def item(self, depth=0):
        kind = self.random.choices(list(KINDS), list(KINDS.values()))[0]
        item = self.node(kind)
        if kind in ("fn", "module", "struct", "trait", "type_alias", "enum", "macro_rules", "extern_crate"):
            item["name"] = self.type_name() if kind in ("struct", "trait", "type_alias", "enum") else self.name()
            if kind != "macro_rules" and self.random.random() < 0.8:
                item["vis"] = self.random.choice(["pub", "pub", "pub", "pub", "crate", "super", {"in": ["crate", "token"]}])
        if kind == "impl":
            item["trait"] = self.random.random() < 0.95
        if kind == "use":
            item["tree"] = self.use_tree()
        if kind == "macro_call":
            item["path"] = self.path()
        if kind == "struct":
            item["fields"] = self.random.choice(["record", "record", "unit", ["pub", None, "crate"]])
        if kind == "module":
            if depth < 2 and self.random.random() < 0.5:
                item["items"] = [self.item(depth + 1) for _ in range(self.random.randint(1, 12))]
            else:
                item["semicolon"] = True
        if kind not in ("use", "module", "trait"):
            item["body"] = self.body()
        return item

    def file(self, number):
        """Any fifty files in a row have the same numbers of items at the top: 3 to 339, 33 in the middle and 53 on average."""
        part = (number * 17 % 50 + 0.5) / 50
        items = [self.item() for _ in range(round(math.exp(statistics.NormalDist(3.5, 1.0).inv_cdf(part))))]
        return {"root": "source_file", "attrs": self.attrs(), "items": items}

    def small_file(self):
        return {"root": "source_file", "items": [{"is": "fn", "hash": self.random.randint(0, 65535), "name": self.name(), "vis": "pub"}]}


def crate(options):
    return {"root": 0, "cfg": ["unix", "debug_assertions", {"key": "target_os", "value": "linux"}] + options, "attrs": []}


def set_file(number, syntax):
    return {"edit": "set_file", "file": number, "syntax": syntax}


def request(crates, edits, shows):
    return {"skipped": SKIPPED, "edition": {"year": 2024, "reserved": RESERVED}, "crates": crates, "edits": edits, "shows": shows}


def files(made, count):
    options = [{"key": "feature", "value": f} for f in FEATURES[:5]]
    shows = [{"show": kind, "crate": 0, "file": n} for n in range(count) for kind in ("page", "imports")]
    return request([crate(options)], [set_file(n, made.file(n)) for n in range(count)], shows)


def small_files(made, numbers):
    shows = [{"show": "tree", "crate": 0, "file": n} for n in (numbers[0], numbers[-1])]
    return request([crate([])], [set_file(n, made.small_file()) for n in numbers], shows)


def many_crates(made, count):
    crates = [crate([{"key": "feature", "value": f"f{n}"}]) for n in range(count)]
    shows = [{"show": "tree", "crate": count - 1, "file": 49}]
    return request(crates, [set_file(n, made.small_file()) for n in range(50)], shows)


def main():
    arguments = argparse.ArgumentParser(description="Writes a request in the shape of real files.")
    arguments.add_argument("shape", choices=["files", "rising", "falling", "crates"])
    arguments.add_argument("count", type=int)
    arguments.add_argument("--seed", type=int, default=0)
    asked = arguments.parse_args()
    if asked.count < 1:
        arguments.error("at least one")
    made = Files(asked.seed)
    if asked.shape == "files":
        made_request = files(made, asked.count)
    elif asked.shape == "rising":
        made_request = small_files(made, range(asked.count))
    elif asked.shape == "falling":
        made_request = small_files(made, range(asked.count - 1, -1, -1))
    else:
        made_request = many_crates(made, asked.count)
    json.dump(made_request, sys.stdout, separators=(",", ":"))


if __name__ == "__main__":
    main()

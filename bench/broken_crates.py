#!/usr/bin/env python3
"""Breaks real crates in one place, and compares what `check --crate` tells of their imports with what rustc refuses.

    broken_crates.py PROGRAM [--count N] [--seconds N] [--seed S] [--registry FOLDER] [--only NAMES]

The crates are those of the packages in a folder (of Debian's `librust-*-dev`, if none is given) that have several files, are not large, and that rustc
compiles alone, with their default features.
First nothing may be told of them as they are. Then an import gets a wrong name, or an item loses its `pub` or its name, and rustc resolves
the names of the crate. It prints what is told and refused by kind of damage, and each import that is told and that rustc takes: there must be none."""
import argparse
import collections
import concurrent.futures
import json
import os
import random
import re
import shutil
import subprocess
import sys
import tempfile
import time
import tomllib

OF_IMPORTS = ("E0364", "E0365", "E0429", "E0430", "E0431", "E0432", "E0433", "E0603", "imports need to be explicitly named", "cannot determine resolution")
LEAST_FILES, MOST_BYTES, MOST_SECONDS, JOBS = 3, 200_000, 120, 2
NAME = re.compile(r"(?:r#)?[A-Za-z_]\w*")
LEAF = re.compile(rb"[^,;{}]*")
PUB = re.compile(rb"\bpub(\s*\([^)]*\))?\s+")
RUSTC = os.path.join(subprocess.run(["rustc", "--print", "sysroot"], capture_output=True, text=True, check=True).stdout.strip(), "bin/rustc")


# ---- packages
class Package:
    """A package that has a library and nothing else."""

    def __init__(self, folder):
        with open(f"{folder}/Cargo.toml", "rb") as file:
            manifest = tomllib.load(file)
        library = manifest.get("lib", {})
        self.folder, self.title = folder, os.path.basename(folder)
        self.edition = str(manifest["package"].get("edition", "2015"))
        self.name = library.get("name", manifest["package"]["name"]).replace("-", "_")
        self.root = library.get("path", "src/lib.rs")
        self.features = sorted(enabled(manifest.get("features", {}), manifest.get("dependencies", {})))
        needed = [name for name, it in manifest.get("dependencies", {}).items() if not (isinstance(it, dict) and it.get("optional"))]
        files = [f"{top}/{name}" for top, _, names in os.walk(f"{folder}/src") for name in names if name.endswith(".rs")]
        self.bytes = sum(map(os.path.getsize, files))
        self.is_simple = (len(files) >= LEAST_FILES and not needed and not library.get("proc-macro", library.get("proc_macro")) and self.bytes < MOST_BYTES and os.path.isfile(f"{folder}/{self.root}")
                          and not os.path.exists(f"{folder}/src/main.rs") and not os.path.exists(f"{folder}/src/bin") and not manifest.get("bin"))


def enabled(features, dependencies):
    """The default features, with those that they enable."""
    found, left = set(), ["default"]
    implied = {name for name, it in dependencies.items() if isinstance(it, dict) and it.get("optional")}
    while left:
        name = left.pop()
        if name not in found and (name in features or name in implied):
            found.add(name)
            left += features.get(name, [])
    return found


def copied(package, to):
    shutil.copytree(package.folder, to, symlinks=False, ignore=lambda _, names: [it for it in names if it in (".git", "tests", "benches", "examples", "target")])


def errors_of(package, folder, emitted="dep-info"):
    """What rustc refuses: its code, and where (file, begin, end); nothing if it takes the crate. For dep-info it goes as far as all names are resolved."""
    words = ["nice", "-n", "10", RUSTC, "--edition", package.edition, "--crate-type", "lib", "--crate-name", package.name, "--emit", emitted, "--error-format", "json",
             "--cap-lints", "allow", "-o", "made", package.root]
    words += [word for name in package.features for word in ("--cfg", f'feature="{name}"')]
    ran = subprocess.run(words, cwd=folder, capture_output=True, text=True, timeout=MOST_SECONDS, check=False)
    rows = [json.loads(line) for line in ran.stderr.splitlines() if line.startswith("{")]
    found = [((row["code"] or {}).get("code") or row["message"], os.path.normpath(it["file_name"]), it["byte_start"], it["byte_end"])
             for row in rows if row["level"].startswith("error") for it in row["spans"] if it["is_primary"]]
    return found or [("rustc failed", "", 0, 0)] * (ran.returncode != 0)


# ---- the program
class Leaf:
    """A leaf of a use tree, from `imports --json`, in the bytes of its file."""

    def __init__(self, row, texts):
        self.file, self.path, self.item, self.removal = row["file"], row["path"] or "", row["range"], row["removal"]
        text = texts[self.file]
        self.place = self.file, row["line"], row["column"]
        self.begin = offset_of(text, row["line"], row["column"])
        self.end = LEAF.match(text, self.begin).end()
        self.is_local = re.split(r"\W", self.path.removeprefix("::"))[0] in ("crate", "self", "super")

    def is_at(self, text, begin, end):
        """A place is that of the leaf, or of a path in front of the lists around it."""
        if begin < self.end and self.begin < end:
            return True
        if not self.item[0] <= begin <= end <= self.begin:
            return False
        depth = 0
        for byte in text[end:self.begin]:
            depth += (byte == ord("{")) - (byte == ord("}"))
            if depth < 0 or depth == 0 and byte == ord(","):
                return False
        return True


def offset_of(text, line, column):
    begin = 0
    for _ in range(line - 1):
        begin = text.index(b"\n", begin) + 1
    end = text.find(b"\n", begin)
    return begin + len(text[begin:end if end >= 0 else len(text)].decode()[:column - 1].encode())


def rows_of(program, folder, *words):
    ran = subprocess.run([program, *words, "--json", "--active", "--crate", "."], cwd=folder, capture_output=True, text=True, timeout=MOST_SECONDS, check=False)
    return [json.loads(line) for line in ran.stdout.splitlines()]


def texts_of(folder, files):
    found = {}
    for name in files:
        with open(f"{folder}/{name}", "rb") as file:
            found[name] = file.read()
    return found


def leaves_of(program, folder):
    rows = rows_of(program, folder, "imports")
    texts = texts_of(folder, {row["file"] for row in rows})
    return [Leaf(row, texts) for row in rows], texts


def told_of(program, folder):
    """The places of the imports that are told."""
    ran = subprocess.run([program, "check", "--crate", "."], cwd=folder, capture_output=True, text=True, timeout=MOST_SECONDS, check=False)
    return {(os.path.normpath(file), int(row), int(column)) for file, row, column, said in (line.split(":", 3) for line in ran.stdout.splitlines())
            if said in (" this import leads to nothing", " what this import names is seen by fewer than the import", " this import has no name")}


def verdicts_of(program, folder):
    """What is said of each import, by its place, if the program resolves imports; and whether it begins with `crate`, `self` or `super`."""
    ran = subprocess.run([program, "imports", "--resolve", "--json", "--crate", "."], cwd=folder, capture_output=True, text=True, timeout=MOST_SECONDS, check=False)
    rows = [json.loads(line) for line in ran.stdout.splitlines()]
    return {(os.path.normpath(row["file"]), row["line"], row["column"]): (row["verdict"], bool(re.match(r"(crate|self|super)\b", row["import"]))) for row in rows}


# ---- damage
def items_of(program, folder):
    """The items of modules that have a name, by file."""
    def walk(items, file):
        for it in items:
            if it["name"] and it["kind"] not in ("use", "extern crate", "macro_rules", "macro call"):
                yield it, file
            if it["kind"] == "mod":
                yield from walk(it["children"], file)
    return [found for row in rows_of(program, folder, "outline", "--no-members") for found in walk(row["items"], row["path"])]


def wrong_name(r, leaf, text):
    """An import with another name in its path."""
    words = [it for it in NAME.finditer(text[leaf.begin:leaf.end].decode().split(" as ")[0]) if it.group() not in ("crate", "self", "super")]
    if not words:
        return None
    at = leaf.begin + len(text[leaf.begin:leaf.end].decode()[:r.choice(words).end()].encode())
    return text[:at] + b"_wrong" + text[at:]


def renamed(it, text):
    at = offset_of(text, it["line"], it["column"]) + len(it["name"].encode())
    return text[:at] + b"_wrong" + text[at:]


def without_pub(it, text):
    begin, end = it["range"][0], offset_of(text, it["line"], it["column"])
    found = list(PUB.finditer(text, begin, end))
    return text[:found[-1].start()] + text[found[-1].end():] if found else None


DAMAGES = ["an import gets a wrong name", "an item loses its pub", "an item loses its name"]


def damaged(r, program, folder):
    """The kind of the damage, the file, and its text."""
    leaves, texts = leaves_of(program, folder)
    items = items_of(program, folder)
    for _ in range(100):
        kind = r.choice(DAMAGES)
        if kind == DAMAGES[0] and leaves:
            leaf = r.choice(leaves)
            file, made = leaf.file, wrong_name(r, leaf, texts[leaf.file])
        elif kind != DAMAGES[0] and items:
            it, file = r.choice(items)
            text = texts_of(folder, [file])[file]
            made = renamed(it, text) if kind == DAMAGES[2] else without_pub(it, text)
        else:
            continue
        if made is not None:
            return kind, file, made
    return None


# ---- one damage
def refused_of(package, folder, leaves, texts):
    """The leaves that rustc refuses, each with a code, and whether it refuses anything."""
    errors = errors_of(package, folder)
    found = {}
    for leaf in leaves:
        codes = [code for code, file, begin, end in errors if file == leaf.file and code.startswith(OF_IMPORTS) and leaf.is_at(texts[file], begin, end)]
        if codes:
            found[leaf.place] = sorted(codes)[0]
    return found, bool(errors)


def write(folder, file, text):
    with open(f"{folder}/{file}", "wb") as to:
        to.write(text)


def left_told(package, folder, leaves, texts, told, refused):
    """What is told and not refused when what is refused is gone, too: rustc says nothing of what follows an import that it refuses."""
    gone, rest, texts = set(refused), told - refused.keys(), dict(texts)
    while rest:
        for leaf in leaves:
            if leaf.place in gone:
                begin, end = leaf.removal
                texts[leaf.file] = texts[leaf.file][:begin] + re.sub(rb"[^\n]", b" ", texts[leaf.file][begin:end]) + texts[leaf.file][end:]
                write(folder, leaf.file, texts[leaf.file])
        more, _ = refused_of(package, folder, [leaf for leaf in leaves if leaf.place not in gone], texts)
        if not more:
            break
        gone |= more.keys()
        rest -= more.keys()
    return rest


def try_one(program, package, kept, seed):
    """What came of one damage: counts, and lines about what is told wrongly, or not told."""
    counts, lines, r = collections.Counter(), [], random.Random(seed)
    with tempfile.TemporaryDirectory(dir=kept) as top:
        folder = f"{top}/{package.title}"
        copied(package, folder)
        found = damaged(r, program, folder)
        if not found:
            return counts, lines
        kind, file, text = found
        write(folder, file, text)
        leaves, texts = leaves_of(program, folder)
        told = told_of(program, folder)
        verdicts = verdicts_of(program, folder)
        refused, is_refused = refused_of(package, folder, leaves, texts)
        counts[kind, "crates"] += 1
        counts[kind, "crates that rustc refuses"] += is_refused
        local = {leaf.place: "crate, self, super" if leaf.is_local else "other" for leaf in leaves}
        for place in sorted(set(refused) | told):
            if place in refused:
                said = "told" if place in told else verdicts.get(place, ["not told"])[0]
                counts[kind, f"{local[place]}: refused, {said}"] += 1
                if place not in told:
                    lines.append(f"{said}: {package.title} {seed} {kind}: {':'.join(map(str, place))} {refused[place]}")
        rest = left_told(package, folder, leaves, texts, told, refused)
        counts[kind, "told, refused when what it follows is gone"] += len(told - refused.keys()) - len(rest)
        counts[kind, "told, taken"] += len(rest)
        lines += [f"TOLD AND TAKEN: {package.title} {seed} {kind} in {file}: {':'.join(map(str, place))}" for place in rest]
    return counts, lines


def alone(program, package, kept):
    """Of a package that rustc compiles alone: what is told of it, how many imports it has, and the verdicts of those that begin with `crate`, `self` or `super`."""
    with tempfile.TemporaryDirectory(dir=kept) as top:
        folder = f"{top}/{package.title}"
        copied(package, folder)
        try:
            if errors_of(package, folder, "metadata"):
                return None
        except subprocess.TimeoutExpired:
            return None
        found = collections.Counter(verdict for verdict, is_local in verdicts_of(program, folder).values() if is_local)
        return sorted(told_of(program, folder)), len(rows_of(program, folder, "imports")), found


def packages_in(registry):
    found = []
    for name in sorted(os.listdir(registry)):
        if os.path.isfile(f"{registry}/{name}/Cargo.toml"):
            package = Package(f"{registry}/{name}")
            if package.is_simple:
                found.append(package)
    return found


def main():
    parser = argparse.ArgumentParser(description=__doc__, formatter_class=argparse.RawDescriptionHelpFormatter)
    parser.add_argument("program")
    parser.add_argument("--count", type=int, default=3000)
    parser.add_argument("--seed", type=int, default=1)
    parser.add_argument("--registry", default="/usr/share/cargo/registry")
    parser.add_argument("--seconds", type=int, default=10**6)
    parser.add_argument("--only", help="packages that were found to compile alone, with commas between them")
    asked = parser.parse_args()
    program, counts, wrong, end = os.path.abspath(asked.program), collections.Counter(), 0, time.monotonic() + asked.seconds
    with tempfile.TemporaryDirectory() as kept, concurrent.futures.ThreadPoolExecutor(JOBS) as pool:
        packages = [it for it in packages_in(asked.registry) if not asked.only or it.title in asked.only.split(",")]
        states = list(pool.map(lambda it: ([], 0, {}) if asked.only else alone(program, it, kept), packages))
        good = [(it, state) for it, state in zip(packages, states) if state]
        print(f"{len(good)} of {len(packages)} packages compile alone, with {sum(state[1] for _, state in good)} imports: " + " ".join(it.title for it, _ in good), flush=True)
        local = sum((collections.Counter(state[2]) for _, state in good), collections.Counter())
        print(f"    of those that begin with crate, self or super: {dict(local)}" if local else "    the program does not resolve imports")
        for it, (told, _, _) in good:
            wrong += len(told)
            print("".join(f"TOLD OF {it.title}: {place}\n" for place in told), end="")
        r = random.Random(asked.seed)
        cases = [(r.choice(good)[0], f"{asked.seed} {number}") for number in range(asked.count)]
        for more, lines in pool.map(lambda case: try_one(program, case[0], kept, case[1]) if time.monotonic() < end else ({}, []), cases):
            counts.update(more)
            print("".join(line + "\n" for line in lines), end="", flush=True)
    for (kind, what), count in sorted(counts.items()):
        print(f"{kind}: {what}: {count}")
    wrong += sum(count for (_, what), count in counts.items() if what == "told, taken")
    print(f"broken_crates: {sum(count for (_, what), count in counts.items() if what == 'crates')} crates, {wrong} imports are told that rustc takes")
    return wrong > 0


if __name__ == "__main__":
    sys.exit(main())

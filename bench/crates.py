#!/usr/bin/env python3
"""Counts the modules of crates: crates.py PROGRAM FOLDER ..

A folder is one of crates, each with a Cargo.toml, as Debian's /usr/share/cargo/registry, or the library of Rust. Prints
the modules, files and failures of each crate that has any, and in all; and the processor time beside that of `outline`
over the same files."""
import glob
import os
import resource
import subprocess
import sys


def timed(words):
    before = resource.getrusage(resource.RUSAGE_CHILDREN)
    ran = subprocess.run(words, capture_output=True, text=True)
    after = resource.getrusage(resource.RUSAGE_CHILDREN)
    return ran, after.ru_utime + after.ru_stime - before.ru_utime - before.ru_stime


def main():
    program = sys.argv[1]
    sums = {"crates": 0, "modules": 0, "files": 0, "failures": 0, "seconds": 0.0, "outline": 0.0}
    for manifest in sorted(it for top in sys.argv[2:] for it in glob.glob(f"{top}/*/Cargo.toml")):
        folder = os.path.dirname(manifest)
        ran, seconds = timed([program, "modules", folder])
        lines = ran.stdout.splitlines()
        files = sorted({line.rsplit(" ", 1)[1] for line in lines})
        failures = [line for line in ran.stderr.splitlines()]
        for line in failures:
            print(f"{os.path.basename(folder)}: {line}")
        sums["crates"] += 1
        sums["modules"] += len(lines)
        sums["files"] += len(files)
        sums["failures"] += len(failures)
        sums["seconds"] += seconds
        sums["outline"] += timed([program, "outline", *files])[1] if files else 0
    print(", ".join(f"{name} {round(number, 2)}" for name, number in sums.items()))


main()

#!/usr/bin/env bash
# The processor time and the memory of `itemtree check --crate`, beside the bounds that were set for it.
#
#   crate.sh PROGRAM [RUNS]
#
# Over the crates of Rust's library, if its source is here (rustup's rust-src, or Debian's), beside `outline` of the same files; over 100
# small crates; and over crates that are made to be hard. Each line has the least seconds of the runs (3), the peak of memory, and what was told.
set -euo pipefail
program=$(realpath "${1:?which program}")
runs=${2:-3}
work=$(mktemp -d)
trap 'rm -rf "$work"' EXIT

command -v /usr/bin/time > /dev/null || { echo 'crate.sh: GNU time is wanted (the package time)' >&2; exit 69; }

# Seconds of the processor and megabytes of the run that took the fewest seconds, and the count and the last line of what it told.
measure() {
    local name=$1 bound=$2 run
    shift 2
    rm -f "$work/times"
    for ((run = 0; run < runs; run++)); do
        /usr/bin/time -a -o "$work/times" -f '%U %S %M' "$@" > "$work/out" 2> "$work/err" || true
    done
    awk -v name="$name" -v bound="$bound" -v lines="$(wc -l < "$work/out")" -v last="$(tail -n 1 "$work/err" | sed "s|$work/||" | cut -c 1-60)" '
        /^[0-9.]+ [0-9.]+ [0-9]+$/ { s = $1 + $2; if (!n++ || s < best) { best = s; kb = $3 } }
        END { printf "%-44s %7.2f s %7.1f MB  %-22s %d lines  %s\n", name, best, kb / 1024, bound, lines, last }' "$work/times"
}

check() { measure "$1" "$2" "$program" check --edition 2021 --crate "$3"; }

# ---- the library of Rust
find_library() {
    local found
    for found in "$(rustc --print sysroot 2> /dev/null)/lib/rustlib/src/rust/library" /usr/src/rustc-*/library /usr/lib/rustlib/src/rust/library; do
        [ ! -d "$found/core/src" ] || { echo "$found" && return; }
    done
}

library=$(find_library)
for name in core alloc std; do
    [ -n "$library" ] || break
    root=$library/$name/src/lib.rs
    mapfile -t files < <("$program" modules "$root" 2> /dev/null | sed 's/.* //' | sort -u)
    echo "$name: ${#files[@]} files of $(cat "${files[@]}" | wc -c) bytes"
    measure "    outline" '' "$program" outline --edition 2021 "${files[@]}"
    check "    check --crate" 'twice of outline' "$root"
done

# ---- small crates
python3 - "$work" << 'PYTHON'
import os
import sys

def write(path, text):
    path = f"{sys.argv[1]}/{path}"
    os.makedirs(os.path.dirname(path), exist_ok=True)
    with open(path, "w", encoding="utf-8") as file:
        file.write(text)

def lines(words, count):
    return "".join(words.format(k, k + 1) + "\n" for k in range(count))

for number in range(100):
    modules = "".join(f"pub mod m{k};\npub use m{k}::{{Thing{k}, make{k}}};\n" for k in range(5))
    write(f"small/{number}/lib.rs", modules + "use std::fmt;\n")
    for k in range(5):
        items = lines("/// Documentation.\n#[derive(Debug)]\npub struct S{0} {{ a: u8 }}\nimpl S{0} {{ pub fn f(&self) -> u8 {{ self.a }} }}", 10)
        write(f"small/{number}/m{k}.rs", f"use crate::m{(k + 1) % 5}::{{S0, S1}};\nuse super::m{k}::S2 as Own;\npub struct Thing{k};\npub fn make{k}() {{}}\n{items}")

names = ", ".join(f"n{k}" for k in range(20_000))
write("chain.rs", "mod m {\n" + "".join(f"pub use self::n{k} as n{k + 1};\n" for k in reversed(range(10_000))) + "pub fn n0() {}\n}\nuse m::n10000;\nuse m::none;\n")
globs = "".join(f"pub mod m{k} {{ pub use super::m{k + 1}::*; }}\n" for k in range(1000))
write("globs.rs", globs + "pub mod m1000 {\n" + lines("pub fn n{0}() {{}}", 100) + "}\nuse m0::{" + ", ".join(f"n{k}" for k in range(101)) + "};\n")
for count in (100, 200, 300):
    every = "".join(f"pub use crate::m{k}::*;\n" for k in range(count))
    modules = "".join(f"pub mod m{k} {{\n{every}" + "".join(f"pub fn n{k}_{j}() {{}}\n" for j in range(count)) + "}\n" for k in range(count))
    write(f"mutual{count}.rs", modules + "mod last { use crate::m0::{" + ", ".join(f"n{k}_{j}" for k in range(count) for j in range(count)) + "}; }\n")
write("repeated.rs", "mod a {\n" + lines("pub fn n{0}() {{}}", 20_000) + "}\nmod b {\n" + "pub use crate::a::*;\n" * 20_000 + "}\nuse b::{" + names + "};\n")
write("modules.rs", lines("mod m{0} {{ pub fn f() {{}} use super::m{0}::f as g; }}", 20_000))
write("paths.rs", "pub mod a {}\n" + ("use crate" + "::a" * 10_000 + ";\nuse self" + "".join(f"::p{k}" for k in range(10_000)) + ";\n") * 20)
write("named.rs", "mod a {\n" + lines("pub fn n{0}() {{}}", 30_000) + "}\n" + lines("use a::n{0};", 30_000))
PYTHON
check_small() { for number in {0..99}; do "$program" check --edition 2021 --crate "$work/small/$number/lib.rs"; done; }
export -f check_small
export program work
measure '100 small crates' '0.5 s' bash -c check_small

# ---- hard ones
check '10,000 re-exports in falling order' '1 s' "$work/chain.rs"
check '1,000 globs, the names at the far end' '1 s' "$work/globs.rs"
for count in 100 200 300; do
    check "$count modules that glob each other" 'refused, or 5 s, 1 GB' "$work/mutual$count.rs"
done
check 'a glob 20,000 times over 20,000 names' '' "$work/repeated.rs"
check '20,000 modules in a file' '' "$work/modules.rs"
check 'paths of 10,000 names' '' "$work/paths.rs"
check '30,000 imports of names of a module' '' "$work/named.rs"

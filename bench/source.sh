#!/usr/bin/env bash
# Times the reader of Rust source over real files, by `itemtree check`, beside its lexer and itself as plain Rust that rustc builds.
#
#     bench/source.sh FOLDER..    over all .rs files below the folders, in one text
#
# It needs the built program (`./run.sh itemtree --version` builds it), rustc and GNU time.
set -euo pipefail
here=$(cd "$(dirname "${BASH_SOURCE[0]}")" && pwd)
program=$here/../crates/itemtree/out/itemtree
times=${TIMES:-5}

tell() { echo "source.sh: $*" >&2; }

[ $# -gt 0 ] || { tell 'a folder of Rust files is wanted, as that of the standard library (rust-src)'; exit 64; }
command -v /usr/bin/time > /dev/null || { tell 'GNU time is wanted (the package time)'; exit 69; }
command -v rustc > /dev/null || { tell 'rustc is wanted'; exit 69; }
[ -x "$program" ] || { tell 'itemtree is not built yet: ./run.sh itemtree --version builds it'; exit 69; }

work=$(mktemp -d)
trap 'rm -rf "$work"' EXIT

# What stands in front of a file alone (its documentation and attributes) would be out of place in the middle of a text.
find "$@" -name '*.rs' -print0 | sort -z | xargs -0 cat | grep -av '^//!\|^#!\[' > "$work/text.rs"
bytes=$(stat -c %s "$work/text.rs")
python3 "$here/plain.py" "$work/plain"
rustc -O -C codegen-units=1 -C panic=abort --edition 2021 -o "$work/plain_reader" "$work/plain/main.rs"

# Reads the text so many times. (Where something of it cannot be read, the status is 1.)
cat > "$work/reader" << 'READER'
for ((pass = 0; pass < $3; pass++)); do "$1" check "$2" || [ $? = 1 ] || exit 2; done
READER

# The processor seconds of a run, and its peak in kB.
measured() {
    /usr/bin/time -f '%U %S %M' -o "$work/time" "$@" < "$work/text.rs" > /dev/null 2> "$work/log" || { cat "$work/log" >&2 && return 1; }
    cat "$work/time"
}

line() {
    local name=$1 user system peak found
    shift
    found=$(measured "$@" "$times")
    read -r user system peak <<< "$found"
    awk -v n="$name" -v b="$bytes" -v t="$times" -v s="$user" -v y="$system" -v p="$peak" \
        'BEGIN { printf "%-12s %8.3f s  %7.1f MB/s  %9d kB, %.1f times the text\n", n, (s + y) / t, b * t / (s + y) / 1e6, p, p * 1024 / b }'
}

tell "$bytes bytes, each line the mean of $times passes, in processor time"
line 'plain lexer' "$work/plain_reader" lex
line 'plain reader' "$work/plain_reader" read all
line reader bash "$work/reader" "$program" "$work/text.rs"

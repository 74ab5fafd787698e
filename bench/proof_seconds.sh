#!/usr/bin/env bash
# Makes proof_seconds.txt anew: the seconds of processor time that each crate of the two programs takes to be proved
# from nothing by one job, the programs with their compilation. run.sh estimates by it how long a first run takes.
# With names of crates it measures these alone, once the crates below them are proved, and changes their lines.
#
#   bench/proof_seconds.sh [CRATE ..]
#
# It takes about as long as the sum of the table, and needs rt, awk and GNU time. Nothing that was proved before is used:
# it works on a copy of the sources, and with a copy of the toolchain, beside which rt finds nothing that is kept.
set -euo pipefail
top=$(dirname "$(dirname "$(realpath "${BASH_SOURCE[0]}")")")
table=$top/bench/proof_seconds.txt
kit=$(dirname "$(dirname "$(realpath "$(command -v rt)")")")
room=$(mktemp -d)
trap 'rm -rf "$room"' EXIT

cp -al "$kit" "$room/kit" 2> /dev/null || { rm -rf "$room/kit" && cp -a "$kit" "$room/kit"; }
mkdir "$room/top"
cp "$top/crates.txt" "$top/HANDLES" "$room/top/"
(cd "$top" && find crates -type f -not -path '*/out/*' -print0 | xargs -0 cp --parents -t "$room/top")

# Prints the crates of the two programs, each after those below it.
in_order() {
    sed 's/#.*//' "$top/crates.txt" | awk -F: '
        NF { name[++count] = $1; sub(/ .*/, "", name[count]); below[count] = $2 }
        END {
            wanted["itemtree"] = wanted["item_tree_tool"] = 1
            for (at = count; at; at--) if (name[at] in wanted) {
                split(below[at], word, " ")
                for (it in word) wanted[word[it]] = 1
            }
            for (at = 1; at <= count; at++) if (name[at] in wanted) print name[at]
        }'
}

# Proves a crate and prints the seconds of processor time.
measure() {
    local name=$1 words=(lib --jobs 1)
    cd "$room/top/crates/$name"
    [ ! -f src/main.rt ] || words=(run --jobs 1 -- --version)
    [ -f stdin ] || : > stdin
    command time -o "$room/time" -f '%U %S' "$room/kit/bin/rt" "${words[@]}" < stdin > "$room/log" 2>&1 ||
        { cat "$room/log" >&2 && exit 1; }
    awk '{ printf "%d\n", $1 + $2 + 0.5 }' "$room/time"
}

for name in $(in_order); do
    seconds=$(measure "$name")
    echo "$name $seconds" >&2
    if [ $# = 0 ] || [[ " $* " = *" $name "* ]]; then
        { grep -v "^$name " "$table" || true; echo "$name $seconds"; } > "$room/table"
        cp "$room/table" "$table"
    fi
done
# In the order of crates.txt.
for name in $(in_order); do grep "^$name " "$table"; done > "$room/table"
cp "$room/table" "$table"

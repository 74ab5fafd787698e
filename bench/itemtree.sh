#!/usr/bin/env bash
# The processor time and the memory of itemtree's commands over a folder of Rust files, beside those of Universal Ctags.
#
#   itemtree.sh FOLDER [RUNS]
#
# It needs the built program (`./run.sh itemtree --version` builds it), `ctags` and GNU time.
set -euo pipefail
folder=${1:?which folder}
runs=${2:-5}
program=$(dirname "$(realpath "${BASH_SOURCE[0]}")")/../crates/itemtree/out/itemtree
work=$(mktemp -d)
trap 'rm -rf "$work"' EXIT

# Seconds of the processor and kilobytes, of the run that took the fewest seconds.
best() {
    local name=$1 run
    shift
    for ((run = 0; run < runs; run++)); do
        /usr/bin/time -a -o "$work/$name" -f '%U %S %M' "$@" > /dev/null 2>&1 || true
    done
    awk -v name="$name" '/^[0-9.]+ [0-9.]+ [0-9]+$/ { s = $1 + $2; if (!n++ || s < best) { best = s; kb = $3 } }
        END { printf "%-18s %6.2f s %8d KB\n", name, best, kb }' "$work/$name"
}

best 'ctags' ctags --languages=Rust -f "$work/ctags.out" -R "$folder"
best 'itemtree tags' "$program" tags -o "$work/tags.out" "$folder"
best 'tags --no-members' "$program" tags --no-members -o "$work/tags.out" "$folder"
best 'itemtree outline' "$program" outline "$folder"

#!/usr/bin/env bash
# Runs the program on generated requests of n, 2n and 4n parts, and prints time, peak memory and, where valgrind is
# there, instructions, with the growth of each from n to 4n.
#
#     bench/measure.sh              four shapes in small sizes
#     bench/measure.sh SHAPE N..    a shape of generate.py, from n = N on; several pairs may follow each other
#     --fast                        no instructions: valgrind takes fifty times as long as the run itself
set -euo pipefail
here=$(cd "$(dirname "${BASH_SOURCE[0]}")" && pwd)
program=$here/../crates/item_tree_tool/out/item_tree_tool

tell() { echo "measure.sh: $*" >&2; }

command -v /usr/bin/time > /dev/null || { tell 'GNU time is wanted (the package time)'; exit 1; }
with_valgrind=$(command -v valgrind || true)
[ "${1:-}" = --fast ] && { with_valgrind=; shift; }
[ $# -gt 0 ] || set -- files 50 rising 5000 falling 5000 crates 100

# Proves and builds the program where that was not done.
echo '{}' | "$here/../run.sh" > /dev/null

work=$(mktemp -d)
trap 'rm -rf "$work"' EXIT

# The seconds, the kilobytes at the peak and the instructions of a run on the request.
measured() {
    local user system seconds peak instructions=-
    /usr/bin/time -f '%U %S %M' -o "$work/time" "$program" < "$work/request" > "$work/output"
    read -r user system peak < "$work/time"
    seconds=$(awk "BEGIN { print $user + $system }")
    if [ -n "$with_valgrind" ]; then
        valgrind --tool=callgrind --callgrind-out-file=/dev/null "$program" < "$work/request" 2> "$work/valgrind" > /dev/null
        instructions=$(awk '/Collected/ { print $NF }' "$work/valgrind")
    fi
    echo "$seconds $peak $instructions"
}

growth() { [ "$2" = - ] && echo - || awk "BEGIN { if ($1 > 0) printf \"%.2f\", $2 / $1; else print \"-\" }"; }

line() { printf '%-9s %8s %12s %9s %10s %15s\n' "$@"; }

shape() {
    local name=$1 n=$2 times seconds peak instructions bytes first=
    for times in 1 2 4; do
        python3 "$here/generate.py" "$name" $((n * times)) > "$work/request"
        bytes=$(stat -c %s "$work/request")
        read -r seconds peak instructions < <(measured)
        line "$name" $((n * times)) "$bytes" "$seconds" "$peak" "$instructions"
        [ -n "$first" ] || first="$seconds $peak $instructions $bytes"
    done
    # shellcheck disable=SC2086
    set -- $first
    line '' growth "$(growth "$4" "$bytes")" "$(growth "$1" "$seconds")" "$(growth "$2" "$peak")" "$(growth "$3" "$instructions")"
}

line shape parts bytes seconds peak_kB instructions
while [ $# -gt 0 ]; do
    shape "$1" "${2:?a shape and a number}"
    shift 2
done

#!/usr/bin/env bash
# Runs a program on each request of the folders of tests/requests, or of another folder of tests with these arguments, and
# compares what it writes and how it ends.
#
#   requests.sh PROGRAM [FOLDER [ARGUMENT ..]]
#
# NAME.json is standard input. NAME.out is the standard output that is wanted (no file: none). NAME.refused is the exit
# status and the line on standard error that are wanted (no file: status 0 and no line).
set -uo pipefail
program=$(realpath "$1")
folder=${2:-requests}
arguments=("${@:3}")
if [ ! -x "$program" ]; then
    echo "requests.sh: no program is at $1" >&2
    echo "$folder: 0 passed, 1 failed"
    exit 69
fi
cd "$(dirname "${BASH_SOURCE[0]}")/$folder" || exit 2
work=$(mktemp -d)
trap 'rm -rf "$work"' EXIT
passed=0 failed=0
for request in */*.json; do
    name=${request%.json}
    if [ -f "$name.refused" ]; then
        read -r status line < "$name.refused"
        printf '%s\n' "$line" > "$work/err"
    else
        status=0
        : > "$work/err"
    fi
    if [ -f "$name.out" ]; then cp "$name.out" "$work/out"; else : > "$work/out"; fi
    "$program" "${arguments[@]}" < "$request" > "$work/found-out" 2> "$work/found-err"
    found=$?
    if [ "$found" = "$status" ] && cmp -s "$work/out" "$work/found-out" && cmp -s "$work/err" "$work/found-err"; then
        passed=$((passed + 1))
    else
        failed=$((failed + 1))
        echo "$folder, $name: wanted status $status, found $found"
        diff "$work/out" "$work/found-out"
        diff "$work/err" "$work/found-err"
    fi
done
echo "$folder: $passed passed, $failed failed"
[ "$failed" = 0 ] && [ "$passed" -gt 0 ]

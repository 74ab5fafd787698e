#!/usr/bin/env bash
# Runs a program with standard input and output that fail, and with input that comes in pieces.
#
#   streams.sh PROGRAM
set -uo pipefail
program=$(realpath "$1")
if [ ! -x "$program" ] || ! command -v python3 > /dev/null; then
    echo "streams.sh: no program is at $1, or python3 is not on the path" >&2
    echo 'streams: 0 passed, 1 failed'
    exit 69
fi
here=$(cd "$(dirname "${BASH_SOURCE[0]}")" && pwd)
work=$(mktemp -d)
trap 'rm -rf "$work"' EXIT
passed=0 failed=0

# A request that is answered, and one that is not.
answered=$here/requests/page/functions_structs_and_outline_modules
refused=$here/requests/refused/negative_number
: > "$work/nothing"
: > "$work/err"
: > "$work/out"

# Looks at a run that has ended: its status, its line on standard error, and the file with the output that is wanted.
judge() {
    local status=$1 name=$2 want_status=$3 want_line=$4 want_output=$5
    if [ "$status" = "$want_status" ] && [ "$(cat "$work/err")" = "$want_line" ] && cmp -s "$work/out" "$want_output"; then
        passed=$((passed + 1))
    else
        failed=$((failed + 1))
        echo "$name: wanted status $want_status and \`$want_line\`, found $status and \`$(head -c 300 "$work/err")\`"
    fi
    : > "$work/err"
    : > "$work/out"
}

# Standard input that fails.
"$program" <&- > "$work/out" 2> "$work/err"
judge $? 'closed standard input' 6 'reading failed' "$work/nothing"
"$program" < "$work" > "$work/out" 2> "$work/err"
judge $? 'a directory as standard input' 6 'reading failed' "$work/nothing"
"$program" 0> "$work/written" > "$work/out" 2> "$work/err"
judge $? 'standard input that can only be written' 6 'reading failed' "$work/nothing"
"$program" < /dev/null > "$work/out" 2> "$work/err"
judge $? 'empty standard input' 2 'not JSON' "$work/nothing"

# Standard output that fails.
"$program" < "$answered.json" >&- 2> "$work/err"
judge $? 'closed standard output' 6 'writing failed' "$work/nothing"
"$program" < "$answered.json" > /dev/full 2> "$work/err"
judge $? 'a full device as standard output' 6 'writing failed' "$work/nothing"
"$program" < "$answered.json" 1< "$answered.json" 2> "$work/err"
judge $? 'standard output that can only be read' 6 'writing failed' "$work/nothing"
# The reader has gone before the program has its input.
{ sleep 0.2; cat "$answered.json"; } | { "$program" 2> "$work/err"; echo $? > "$work/status"; } | :
judge "$(cat "$work/status")" 'a pipe without a reader as standard output' 6 'writing failed' "$work/nothing"

# Standard output that is never written, and a line that cannot be.
echo '{}' | "$program" >&- 2> "$work/err"
judge $? 'closed standard output and nothing to write' 0 '' "$work/nothing"
"$program" < "$refused.json" >&- 2> "$work/err"
judge $? 'closed standard output and a value that is no request' 3 'not a request' "$work/nothing"
"$program" < "$refused.json" > "$work/out" 2>&-
judge $? 'closed standard error and a value that is no request' 3 '' "$work/nothing"
"$program" < "$refused.json" > "$work/out" 2> /dev/full
judge $? 'a full device as standard error and a value that is no request' 3 '' "$work/nothing"

# Gives a file to a program in pieces of that many bytes, through a pipe that keeps them apart.
in_pieces='
import os, subprocess, sys
path, size, program = sys.argv[1], int(sys.argv[2]), sys.argv[3]
with open(path, "rb") as file:
    data = file.read()
end, start = os.pipe2(os.O_DIRECT | os.O_CLOEXEC)
running = subprocess.Popen([program], stdin=end)
os.close(end)
for place in range(0, len(data), size):
    os.write(start, data[place:place + size])
os.close(start)
sys.exit(running.wait())
'

# The request with spaces behind it, so that it ends before, at or behind the end of a room of 4,096 bytes, or of the next.
for length in 4095 4096 4097 8191 8192 8193 20000; do
    for request in "$answered" "$refused"; do
        printf "%-${length}s" "$(cat "$request.json")" > "$work/request"
        want_status=0 want_line='' want_output=$request.out
        if [ "$request" = "$refused" ]; then want_status=3 want_line='not a request' want_output=$work/nothing; fi
        for size in 1 4095 4096 4097; do
            python3 -c "$in_pieces" "$work/request" "$size" "$program" > "$work/out" 2> "$work/err"
            judge $? "$(basename "$request") of $length bytes in pieces of $size" "$want_status" "$want_line" "$want_output"
        done
    done
done

echo "streams: $passed passed, $failed failed"
[ "$failed" = 0 ] && [ "$passed" -gt 0 ]

#!/usr/bin/env bash
# Refuses each request for memory in turn, one a run, until a run makes no further request; and from a mark on all of them, in
# tests of what takes no memory. As many subjects are tried at once as there are processors.
#
#   refused_memory.sh PROGRAM ITEMTREE [TESTS ..]
#
# The program on each request of tests/requests that it answers, and with --outline on each of tests/outlines, has to end with status 5,
# the line `out of memory` and nothing written, or to do without and write all that it writes else. ITEMTREE with each of its commands on a
# small file has to end with status 2, a line that ends so, and nothing written but the head of a tags file, or to do without as well; on a
# package it may have told of the other files. ITEMTREE's serve on tests/itemtree/session.jsonl may end so before it
# reads a line; otherwise it has to answer each line with one, one of them at most with an error of want of memory, and to go on.
# Each test of the binaries TESTS whose name holds `when_memory_is_refused` has to pass in every run. Each whose name holds
# `where_no_memory_is_left` has to pass where all requests between its marks are refused, and to make only the one there by
# which it sees that.
set -uo pipefail
program=$(realpath "$1")
itemtree=$(realpath "$2")
shift 2
binaries=()
[ $# = 0 ] || mapfile -t binaries < <(realpath "$@")
here=$(cd "$(dirname "${BASH_SOURCE[0]}")" && pwd)
for needed in "$program" "$itemtree" "${binaries[@]}" cc; do
    if ! command -v "$needed" > /dev/null; then
        echo "refused_memory.sh: there is no $needed" >&2
        echo 'refused_memory: 0 passed, 1 failed'
        exit 69
    fi
done
work=$(mktemp -d)
trap 'rm -rf "$work"' EXIT
cc -shared -fPIC -O1 -o "$work/refuse_memory.so" "$here/refuse_memory.c" -ldl || exit 2
export here work

# Runs a command with one request refused; leaves its status, and the number of requests that it made.
refuse() {
    local request=$1
    shift
    COUNT_REQUESTS=$own/count REFUSE_REQUEST=$request LD_PRELOAD=$work/refuse_memory.so "$@" > "$own/out" 2> "$own/err"
    status=$?
    read -r made pairs < "$own/count"
}

# Whether the command of that run said that memory was out, wrote nothing, and ended with the status for it.
ended_out_of_memory() {
    local said
    [ "$status" = 5 ] && [ ! -s "$own/out" ] && ! IFS= read -r -d '' said < "$own/err" && [ "$said" = $'out of memory\n' ]
}

judge() {
    if [ "$1" = 0 ]; then passed=$((passed + 1)); else failed=$((failed + 1)); echo "$2"; fi
}

# Whether that run wrote what is wanted of the request.
answered() { [ "$status" = 0 ] && cmp -s "$own/out" "$here/$1.out"; }

# A program and a request, by its path in tests without an ending, and arguments.
try_request() {
    local request
    for ((request = 1; ; request++)); do
        refuse "$request" "$1" "${@:3}" < "$here/$2.json"
        [ "$made" -ge "$request" ] || break
        ended_out_of_memory || answered "$2"
        judge $? "$2: status $status with request $request for memory refused"
    done
    answered "$2"
    judge $? "$2: status $status with no request for memory refused"
}

try_outline() { try_request "$1" "$2" --outline; }

# A command of itemtree, in one word, on a small file, which FILE in it stands for too.
try_command() {
    local request command file=${file:-$here/itemtree/shapes.rs}
    read -ra command <<< "$2"
    command=("${command[@]/#FILE/"$file"}")
    "$1" "${command[@]}" "$file" > "$own/whole" 2> "$own/err"
    for ((request = 1; ; request++)); do
        refuse "$request" "$1" "${command[@]}" "$file"
        [ "$made" -ge "$request" ] || break
        if [ "$status" = 2 ]; then ! grep -qv '^!_TAG' "$own/out" && grep -q 'out of memory$' "$own/err"; else [ "$status" = 0 ] && cmp -s "$own/out" "$own/whole"; fi
        judge $? "itemtree $2: status $status with request $request for memory refused"
    done
    [ "$status" = 0 ]
    judge $? "itemtree $2: status $status with no request for memory refused"
}

# The same on a file whose brackets have to be mended.
try_damaged() {
    printf '#[derive(\nstruct A;\nimpl A {\n    fn a(x: u8\n\n    fn b() {}\n}\nuse a::b;\n' > "$own/damaged.rs"
    file=$own/damaged.rs try_command "$1" "$2"
}

# A command of itemtree on a package. Where one of its files has no tree for want of memory, the others are still told of.
try_crate() {
    local request command wanted top=$own/package
    read -ra command <<< "$2"
    mkdir -p "$top/src/b"
    printf '[package]\nname = "p"\nedition = "2021"\n[features]\ndefault = ["f"]\nf = ["dep:d"]\n[dependencies]\nd = { version = "1", optional = true }\n' > "$top/Cargo.toml"
    printf '#[cfg(feature = "f")] mod a;\nmod b { pub mod c; }\nmod gone;\nuse b::c::D;\n' > "$top/src/lib.rs"
    printf 'pub fn f() {}\n' > "$top/src/a.rs"
    printf 'pub struct D;\n' > "$top/src/b/c.rs"
    printf 'fn orphan() {}\n' > "$top/src/orphan.rs"
    "$1" "${command[@]}" "$top" > "$own/whole" 2> "$own/err"
    wanted=$?
    for ((request = 1; ; request++)); do
        refuse "$request" "$1" "${command[@]}" "$top"
        [ "$made" -ge "$request" ] || break
        if [ "$status" = 2 ]; then grep -q 'out of memory$' "$own/err"; else [ "$status" = "$wanted" ] && cmp -s "$own/out" "$own/whole"; fi
        judge $? "itemtree $2: status $status with request $request for memory refused"
    done
    [ "$status" = "$wanted" ] && [ "$wanted" -lt 2 ] && [ -s "$own/whole" ]
    judge $? "itemtree $2: status $status with no request for memory refused"
}

# Whether that run answered each line, at most one of them with want of memory, and went on: the last two lines ask the same, and set
# all that they ask of, so one of them is answered as where nothing is refused.
went_on() {
    local -a lines
    mapfile -t lines < "$own/out"
    [ "$status" = 0 ] && [ ! -s "$own/err" ] && [ "$(grep -cx '{"id":.*}' "$own/out")" = "$count" ] && [ "${#lines[@]}" = "$count" ] &&
        [ "$(grep -c '"error":{"kind":"out of memory"}}$' "$own/out")" -le 1 ] &&
        { [ "${lines[-1]#*,\"shows\":}" = "$wanted" ] || [ "${lines[-2]#*,\"shows\":}" = "$wanted" ]; }
}

# A session of itemtree.
try_session() {
    local request count wanted session=$here/itemtree/$2.jsonl
    count=$(wc -l < "$session")
    wanted=$("$1" serve < "$session" | tail -1)
    wanted=${wanted#*,\"shows\":}
    for ((request = 1; ; request++)); do
        refuse "$request" "$1" serve < "$session"
        [ "$made" -ge "$request" ] || break
        if [ "$status" = 2 ] && [ ! -s "$own/out" ]; then [[ $(cat "$own/err") = *'out of memory' ]]; else went_on; fi
        judge $? "itemtree serve: status $status with request $request for memory refused"
    done
    went_on && ! grep -q 'out of memory' "$own/out" && [[ $wanted = '['*']}' ]]
    judge $? "itemtree serve: status $status with no request for memory refused"
}

# A test of a binary.
try_test() {
    local request
    for ((request = 1; ; request++)); do
        refuse "$request" "$1" "$2"
        judge "$status" "test $2: failed with request $request for memory refused"
        [ "$made" -ge "$request" ] || break
    done
}

# A test of a binary with marks.
try_marked() {
    REFUSE_MARKED=1 refuse 0 "$1" "$2"
    [ "$status" = 0 ] && [ "$pairs" = 1 ] && [ "$made" = 1 ]
    judge $? "test $2: status $status, $pairs pairs of marks and $made requests between them"
}

# Tries one subject in a folder of its own, and ends with its counts.
try() {
    own=$(mktemp -d -p "$work") passed=0 failed=0
    printf '%42s' '' > "$own/count"
    "$@"
    echo "counts: $1 $passed $failed"
}
export -f refuse ended_out_of_memory answered judge try_request try_outline try_command try_damaged try_crate went_on try_session try_test try_marked try

# Each subject is three words, ended by a null byte each, since a path may hold any other.
subjects() {
    local binary name
    cd "$here" || exit 2
    for name in requests/*/*.out; do printf '%s\0' try_request "$program" "${name%.out}"; done
    for name in outlines/*/*.out; do printf '%s\0' try_outline "$program" "${name%.out}"; done
    for name in outline page imports 'find area' 'imports --duplicates' 'outline --json' 'page --ids off' 'tags -o -' 'changed FILE' 'request --show page' check; do printf '%s\0' try_command "$itemtree" "$name"; done
    for name in outline imports 'find A::b' 'outline --json' 'tags -o -'; do printf '%s\0' try_damaged "$itemtree" "$name"; done
    for name in modules 'modules --json' 'modules --orphans' 'check --crate' 'outline --crate' 'imports --crate' 'imports --resolve --crate' 'tags -o - --crate'; do printf '%s\0' try_crate "$itemtree" "$name"; done
    printf '%s\0' try_session "$itemtree" session
    for binary in "${binaries[@]}"; do
        while IFS= read -r name; do
            case $name in
                *when_memory_is_refused*) printf '%s\0' try_test "$binary" "$name" ;;
                *where_no_memory_is_left*) printf '%s\0' try_marked "$binary" "$name" ;;
            esac
        done < <("$binary" --list | sed -n 's/: test$//p')
    done
}

subjects | xargs -0 -n 3 -P "$(nproc)" bash -c 'try "$@"' try > "$work/told"
grep -v '^counts: ' "$work/told"
# The last run of a subject whose requests are refused in turn is one in which nothing was.
awk '/^counts: / { passed += $3; failed += $4; subjects[$2]++; refused[$2] += $3 + $4 - 1 }
     END {
         printf "%d requests: %d times memory was refused\n", subjects["try_request"], refused["try_request"]
         printf "%d of outlines: %d times memory was refused\n", subjects["try_outline"], refused["try_outline"]
         printf "%d commands of itemtree: %d times memory was refused\n", subjects["try_command"], refused["try_command"]
         printf "%d on a package: %d times memory was refused\n", subjects["try_crate"], refused["try_crate"]
         printf "%d of damaged texts: %d times memory was refused\n", subjects["try_damaged"], refused["try_damaged"]
         printf "%d sessions of itemtree: %d times memory was refused\n", subjects["try_session"], refused["try_session"]
         printf "%d tests: %d times memory was refused\n", subjects["try_test"], refused["try_test"]
         printf "%d tests: no memory was left\n", subjects["try_marked"]
         printf "refused_memory: %d passed, %d failed\n", passed, failed
         exit failed > 0 || passed == 0
     }' "$work/told"

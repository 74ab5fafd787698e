#!/usr/bin/env bash
# Plants wrong bodies one by one: edits that turn the meaning of a public call, each of which the prover has to refuse, so that
# it is seen that the contracts say enough. They are those of tests/wrong_bodies, and those of crates/*/must-fail, the few that
# the merge gate tries too. A file has a line `file:`, and pairs of lines `old:` and `new:`, as `rt` reads them.
#
#   wrong_bodies.sh [CRATE ..]           tries those of all crates, or of these, in a copy of the crates; all take hours
#   wrong_bodies.sh --check [CRATE ..]   proves nothing: whether each `old:` text stands exactly once in its file
#
# The copy begins with what `rt` kept of these crates on this machine. With RT_JOBS=1 one is tried at a time.
set -uo pipefail
cd "$(dirname "${BASH_SOURCE[0]}")/.." || exit 2
is_check='' room='' passed=0 failed=0
if [ "${1:-}" = --check ]; then
    is_check=1
    shift
fi
crates=("$@")
[ $# -gt 0 ] || mapfile -t crates < <(sed '/^#/d; s/:.*//' crates.txt)

close() {
    [ -z "$room" ] || rm -rf "$room"
    echo "wrong_bodies: $passed passed, $failed failed"
    [ "$failed" = 0 ] && [ "$passed" -gt 0 ]
    exit $?
}
trap close EXIT
trap 'failed=$((failed + 1)); exit' INT TERM HUP

fail() {
    failed=$((failed + 1))
    echo "wrong_bodies.sh: $1" >&2
    exit
}

# The wrong bodies of these crates, from both places.
find_bodies() {
    local crate body
    bodies=()
    for crate in "$@"; do
        for body in "crates/$crate/must-fail"/*.edit "tests/wrong_bodies/$crate"/*.edit; do
            [ ! -f "$body" ] || bodies+=("$body")
        done
    done
}

# Counts the bodies that can be planted, and prints of each other one why it cannot.
check_bodies() {
    local verdict why
    while read -r verdict why; do
        if [ "$verdict" = good ]; then
            passed=$((passed + 1))
        else
            failed=$((failed + 1))
            echo "$why"
        fi
    done < <(python3 - "${bodies[@]}" << 'END'
import os, sys

def fault(crate, body):
    file, old, texts, pairs = None, None, {}, 0
    for line in open(body, encoding="utf-8").read().split("\n"):
        if line.startswith("file: "):
            file = f"crates/{crate}/{line[6:]}"
            if file not in texts and os.path.isfile(file):
                texts[file] = open(file, encoding="utf-8").read()
        elif line.startswith("old: "):
            old = line[5:]
            count = texts.get(file, "").count(old)
            if count != 1:
                return f"this stands {count} times in {file}, and not once: {old.strip()}"
        elif line.startswith("new:") and old:
            texts[file], old, pairs = texts[file].replace(old, line[4:].removeprefix(" ")), None, pairs + 1
        elif line.strip():
            return f"this line is not read: {line}"
    return None if pairs and not old else "it has no pair of `old:` and `new:`"

seen = set()
for body in sys.argv[1:]:
    parts = body.split("/")
    crate = parts[1] if parts[0] == "crates" else parts[2]
    why = "another one has its name" if (crate, parts[-1]) in seen else fault(crate, body)
    seen.add((crate, parts[-1]))
    print(f"bad {body}: {why}" if why else "good")
END
    )
}

# Tries some bodies of a crate, and tells what became of each.
try_bodies() {
    local crate=$1 body name said verdict
    shift
    rm -rf "$room/crates/$crate/must-fail"
    mkdir "$room/crates/$crate/must-fail"
    cp "$@" "$room/crates/$crate/must-fail"
    (cd "$room" && exec rt must-fail "$crate") > "$room/said" 2>&1
    for body in "$@"; do
        name=$crate/$(basename "$body")
        said=$(grep -F -m 1 "must-fail $name: " "$room/said")
        case $said in
            *': refused, as it must be (only '*) verdict='NOT REFUSED BY A CLAUSE' ;;
            *': refused, as it must be'*) verdict=refused ;;
            *': NOT REFUSED: '*) verdict='NOT REFUSED' ;;
            *': BAD EDIT: '*) verdict='BAD EDIT' ;;
            *) verdict='NOT TRIED' said=$(grep -v 'must-fail' "$room/said" | tail -n 1) ;;
        esac
        if [ "$verdict" = refused ]; then passed=$((passed + 1)); else failed=$((failed + 1)); fi
        echo "$verdict: $name: ${said#*"$name: "}"
    done
}

for crate in "${crates[@]}" $(ls tests/wrong_bodies); do
    [ -d "crates/$crate" ] || fail "there is no crate $crate"
done
if [ -n "$is_check" ]; then
    find_bodies "${crates[@]}"
    check_bodies
    exit
fi
command -v rt > /dev/null || fail 'rt is not on the path'
room=$(mktemp -d)
cp crates.txt HANDLES "$room"
tar -c --exclude='crates/*/out' --exclude='crates/*/must-fail' crates | tar -x -C "$room"
for crate in "${crates[@]}"; do
    find_bodies "$crate"
    # `rt` tells and keeps what became of them once all that it was given are tried.
    for ((first = 0; first < ${#bodies[@]}; first += 10)); do
        try_bodies "$crate" "${bodies[@]:first:10}"
    done
done

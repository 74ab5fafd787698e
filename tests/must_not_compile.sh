#!/usr/bin/env bash
# Compiles the files of tests/must_not_compile as the modules of one program over the repository's own crates, and looks for
# the error that the second line of each names, which has to be the only one in that file. A file that wants `nothing` has
# to compile. It proves nothing.
set -uo pipefail
cd "$(dirname "${BASH_SOURCE[0]}")/.." || exit 2
if ! command -v rt > /dev/null; then
    echo 'must_not_compile.sh: rt is not on the path' >&2
    echo 'must_not_compile: 0 passed, 1 failed'
    exit 69
fi
work=$(mktemp -d)
trap 'rm -rf "$work"' EXIT
cp HANDLES "$work"
for name in hir_input item_tree_attrs item_tree item_tree_db; do
    grep "^$name:" crates.txt >> "$work/crates.txt"
    mkdir -p "$work/crates/$name"
    cp -r "crates/$name/src" "crates/$name/specs" "crates/$name/proofs" "$work/crates/$name"
done
echo "lending: hir_input item_tree item_tree_db" >> "$work/crates.txt"
lending=$work/crates/lending
mkdir -p "$lending/src" "$lending/specs" "$lending/proofs"
: > "$lending/specs/Lib.antt"
: > "$lending/proofs/Lib.antt"
printf '#![tactic(auto)]\n\n' > "$lending/src/main.rt"
for source in tests/must_not_compile/*.txt; do
    name=$(basename "$source" .txt)
    cp "$source" "$lending/src/$name.rt"
    echo "mod $name;" >> "$lending/src/main.rt"
done
printf '\nfn main(_rt: HostRuntime) {}\n' >> "$lending/src/main.rt"
(cd "$lending" && rt try) > "$work/log" 2>&1
passed=0 failed=0
for source in tests/must_not_compile/*.txt; do
    name=$(basename "$source" .txt)
    wanted=$(sed -n '2s/^\/\/ wants: //p' "$source")
    found=$(sed -nE "s/^src\/$name\.rt:.* error\[([a-z0-9-]+)\].*/\1/p" "$work/log" | tr '\n' ' ')
    if [ "${found:-nothing }" = "$wanted " ]; then
        passed=$((passed + 1))
    else
        failed=$((failed + 1))
        echo "$name: wanted $wanted, found ${found:-nothing}"
    fi
done
stray=$(grep -w error "$work/log" | grep -vE '^src/[a-z_]+\.rt:.* error\[')
if [ -n "$stray" ]; then
    failed=$((failed + 1))
    printf 'an error that is of no file: %s\n' "$stray"
fi
[ "$failed" = 0 ] || tail -n 20 "$work/log"
echo "must_not_compile: $passed passed, $failed failed"
[ "$failed" = 0 ]

#!/usr/bin/env bash
# Runs the tests of tests/library, with every check on and without a proof: as modules of a copy of item_tree_tests, whose samples they
# share. `lib.txt` stands before them. What the tests of that crate itself show, the merge gate runs.
set -uo pipefail
cd "$(dirname "${BASH_SOURCE[0]}")/.." || exit 2
if ! command -v rt > /dev/null; then
    echo 'library.sh: rt is not on the path' >&2
    echo 'library: 0 passed, 1 failed'
    exit 69
fi
work=$(mktemp -d)
trap 'rm -rf "$work"' EXIT
cp HANDLES "$work"
./run.sh --crates item_tree_tests > "$work/crates.txt"
while IFS=: read -r name _; do
    mkdir -p "$work/crates/$name"
    cp -r "crates/$name/src" "crates/$name/specs" "crates/$name/proofs" "$work/crates/$name"
done < "$work/crates.txt"
own=$work/crates/item_tree_tests/src
# (the gate runs the crate's own)
find "$own" -name '*.rt' -exec sed -i '/^#\[test\]$/,/^}$/d' {} +
sed 's/^macro_rules!/#[cfg(test)]\n&/' tests/library/lib.txt > "$own/lib.new"
for source in tests/library/*.txt; do
    name=$(basename "$source" .txt)
    [ "$name" != lib ] || continue
    cp "$source" "$own/library_$name.rt"
    printf '#[cfg(test)]\nmod library_%s;\n' "$name"
done >> "$own/lib.new"
{ sed '/^#\[cfg(test)\]$/,$d' "$own/lib.rt"; cat "$own/lib.new"; sed -n '/^#\[cfg(test)\]$/,$p' "$own/lib.rt"; } > "$own/lib.all"
rm "$own/lib.new"
mv "$own/lib.all" "$own/lib.rt"
wanted=$(cat tests/library/*.txt | grep -c '^#\[test\]')
(cd "$work/crates/item_tree_tests" && rt try --test) > "$work/log" 2>&1
passed=$(grep -cE '^test .* \.\.\. ok$' "$work/log")
failed=$((wanted - passed))
[ "$failed" = 0 ] || cat "$work/log"
echo "library: $passed passed, $failed failed"
[ "$failed" = 0 ]

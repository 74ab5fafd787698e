#!/usr/bin/env bash
# Looks for what no proof above item_tree may do: open the words that say by counting what an id stands for, which ids there
# are, in which order, and which visibilities a forest has. What stands above has the laws of item_tree's proofs alone.
#
# Prints each line that opens one. It reads the sources, and proves nothing.
set -uo pipefail
cd "$(dirname "${BASH_SOURCE[0]}")/.." || exit 2
words='node_at|vis_at|arena_of|top_ids|child_ids|ids_from|all_ids|id_cmp'
passed=0 failed=0

# Each word has to stand where it is looked for, so that one that gets another name is not missed.
for word in ${words//|/ }; do
    if grep -rqE "^ *unfoldable pub $word :" crates/item_tree/specs; then
        passed=$((passed + 1))
    else
        failed=$((failed + 1))
        echo "item_tree/specs has no unfoldable word $word"
    fi
done
for crate in crates/*/; do
    name=$(basename "$crate")
    [ "$name" != item_tree ] || continue
    if (cd "$crate" && grep -rnE "\bunfolding\b.*\b($words)\b" src specs proofs --include='*.rt' --include='*.antt' 2> /dev/null) | sed "s|^|$name/|" | grep .; then
        failed=$((failed + 1))
    else
        passed=$((passed + 1))
    fi
done
echo "closed_words: $passed passed, $failed failed"
[ "$failed" = 0 ]

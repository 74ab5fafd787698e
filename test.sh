#!/usr/bin/env bash
# Runs every test: what reads the sources alone, the merge gate (proofs, wrong bodies, tests, the stored runs), and what the
# gate does not run, over the programs that it built.
#
#   test.sh           all of it
#   test.sh --quick   what needs no proof, with fewer cases, over the programs that are built already
#
# It prints the time of each part as it ends, and its last line is `N passed, M failed`, whatever happens. The status is 0
# where nothing failed, 69 where something that the tests need is missing, and otherwise 1.
set -uo pipefail
cd "$(dirname "$(realpath "${BASH_SOURCE[0]}")")" || exit 1
program=crates/item_tree_tool/out/item_tree_tool
itemtree=crates/itemtree/out/itemtree
tests=(crates/item_tree_tests/out/item_tree_tests_tests)
log=$(mktemp)
planned=1 is_missing=

# Finds the processor seconds that all that has ended so far has taken. (In `$(times)` they would be those of the inner shell.)
count_spent() {
    times > "$log.times"
    [[ $(tail -n 1 "$log.times") =~ ^([0-9]+)m([0-9]+).*\ ([0-9]+)m([0-9]+) ]]
    spent=$((60 * (BASH_REMATCH[1] + BASH_REMATCH[3]) + BASH_REMATCH[2] + BASH_REMATCH[4]))
}

tell_time() { echo "time: $1 took $2 s, and $(($3 / 60)).$(($3 % 60 / 6)) minutes of processors"; }

# Adds up the counts of all parts. A part that ended without them, or was never begun, is a failure.
close() {
    local parts
    count_spent
    sed -n '/^time: /p' "$log"
    tell_time 'all' "$SECONDS" "$spent"
    sed -nE '/^[a-z_]+: [0-9]+ passed, [0-9]+ failed$/p' "$log"
    sed -nE 's/^([a-z_]+: )?([0-9]+) passed, ([0-9]+) failed$/\2 \3/p' "$log" |
        awk -v planned="$planned" '
            { passed += $1; failed += $2; parts++ }
            END {
                if (parts < planned) failed += planned - parts
                if (!passed && !failed) failed = 1
                printf "%d passed, %d failed\n", passed, failed
                exit failed > 0
            }'
    parts=$?
    rm -f "$log" "$log.times"
    exit "${is_missing:-$parts}"
}
trap close EXIT
trap 'exit 130' INT
trap 'exit 143' TERM HUP

# How many crates the gate may prove side by side: one a processor, and one for each four gigabytes, of which a check takes
# less. (By its own reckoning, which is of the worst crate of so many lines, it works on one or two at the end.)
count_lanes() {
    local gigabytes processors
    gigabytes=$(awk '/^MemTotal:/ { print int($2 / 1000000) }' /proc/meminfo)
    processors=$(nproc)
    echo $((gigabytes / 4 < 1 ? 1 : gigabytes / 4 < processors ? gigabytes / 4 : processors))
}

lack() {
    echo "test.sh: $1" >&2
    is_missing=69
    exit
}

# Runs a part, and prints the second at which each of its crates was done, and how long it took.
part() {
    local name=$1 start=$SECONDS before line status
    shift
    count_spent
    before=$spent
    "$@" 2>&1 | while IFS= read -r line; do
        printf '%s\n' "$line"
        case $line in
            'rt: '*' proved' | 'rt: '*' NOT PROVED' | 'rt: '*'trying its must-fail edits'*)
                echo "   ($((SECONDS - start)) s)" ;;
        esac
    done | tee -a "$log"
    status=${PIPESTATUS[0]}
    count_spent
    tell_time "$name" $((SECONDS - start)) $((spent - before)) | tee -a "$log"
    return "$status"
}

# Tries the programs; the parts that take longest come last.
try_programs() {
    part 'the requests' tests/requests.sh "$program"
    part 'the outlines' tests/requests.sh "$program" outlines --outline
    part 'streams' tests/streams.sh "$program"
    part 'the command line' tests/itemtree.py
    part 'crates' tests/crates.py "$itemtree"
    part 'imports' tests/imports.py "$itemtree"
    part 'random crates' tests/random_crates.py "$itemtree"
    part 'the manual page' docs/man/make.py --check "$itemtree" docs/man
    part 'edits that a dependent sees' tests/changed.py "$itemtree"
    part 'recipes for git' tests/recipes.py "$itemtree"
    part 'the reader' tests/reader.sh "$itemtree"
    part 'deep and wide requests' tests/deep_and_wide.py "$program"
    part 'damaged requests' tests/hostile_bytes.py "$program" --seconds 60 --count "$1"
    part 'requests line by line' tests/serve.py "$itemtree" "$program" --sessions "$2"
    part 'texts in the making' tests/typed.py "$itemtree"
    part 'an editor' tests/lsp.py "$itemtree" --edits "$2"
    part 'real editors' tests/editors.py "$itemtree"
    part 'time that grows' tests/growth.py "$itemtree"
    part 'freed memory' tests/freed_memory.py "$itemtree"
    part 'refused memory' tests/refused_memory.sh "$program" "$itemtree" "${tests[@]}"
}

[ "$(uname -sm)" = 'Linux x86_64' ] || lack "the tests need Linux on x86-64, and this is $(uname -sm)"
needed_ones=(python3 cc git) is_quick=
case $* in
    '') needed_ones+=(rt) ;;
    --quick) is_quick=1 ;;
    *) echo 'usage: test.sh [--quick]' >&2 && exit 1 ;;
esac
for needed in "${needed_ones[@]}"; do
    command -v "$needed" > /dev/null || lack "$needed is not on the path, and the tests need it"
done
if [ -n "$is_quick" ]; then
    for built in "$program" "$itemtree"; do
        [ -x "$built" ] || lack "$built is not built yet: ./run.sh $(basename "$built") builds it"
    done
    mapfile -t tests < <(find "${tests[@]}" -executable 2> /dev/null)
fi

planned=$((is_quick ? 29 : 33))
part 'the closed words' tests/closed_words.sh
part 'words with one meaning' tests/one_meaning.py
part 'the length of documents' tests/sentences.py
part 'the shape of the code' tests/shape.py
part 'tables of words' tests/tables.py
part 'the pages of the crates' docs/api.py --check
part 'the names of the layer' tests/layer_names.py
part 'the list of definitions' tests/definitions.py --check
part 'where wrong bodies are planted' tests/wrong_bodies.sh --check
if [ -n "$is_quick" ]; then
    try_programs 2000 100
elif part 'the merge gate' env RT_JOBS="$(count_lanes)" rt ci; then
    ./run.sh --take-built "$(grep -xE '[0-9]+ passed, [0-9]+ failed.*' "$log" | tail -n 1)"
    part 'what must not compile' tests/must_not_compile.sh
    part 'the libraries, unproved' tests/library.sh
    part 'the archive' tests/release.py run.sh
    try_programs 8000 1000
else
    # The gate leaves the programs and the tests as it built them; after a failure they would be those of earlier sources.
    echo 'test.sh: the gate failed, so the programs were not tried'
fi

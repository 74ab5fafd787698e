#!/usr/bin/env bash
# What itemtree takes over very many files, in one process and in many: the same result, sooner and in less memory.
#
#   scale.sh make SOURCES COUNT FOLDER          copies the .rs files of SOURCES into new folders below FOLDER until there are COUNT
#   scale.sh run PROGRAM FOLDER [COMMAND ..]    runs the built PROGRAM over the .rs files of FOLDER
#
# COMMAND is tags, outline or check; all three if none is given. Each runs in one process, then in one for each list of a thousand files, and
# at last on other machines, if HOSTS names some. It prints the seconds by the clock, the largest memory of a process here and the bytes, and
# fails where the results differ.
#
# PROCESSES is how many run at a time: one for each processor. HOSTS names machines as GNU Parallel's --sshlogin does; each must have PROGRAM
# and FOLDER in the same place. EACH is the length of a list. ONE=no leaves the one process out. ROOM is the folder for lists and results (/tmp).
set -euo pipefail
export LC_ALL=C

usage() {
    sed -n '2,/^set /s/^# \{0,1\}//p' "$0" >&2
    exit 64
}

make_files() {
    local count=$2 made=0 number=0 sources to each
    sources=$(realpath "$1")
    each=$(find "$sources" -type f -name '*.rs' | wc -l)
    ((each)) || { echo "scale.sh: no .rs file is below $sources" >&2; exit 64; }
    mkdir -p "$3"
    to=$(realpath "$3")
    while ((made < count)); do
        mkdir "$to/$number"
        (cd "$sources" && find . -type f -name '*.rs' -print0 | sort -z | { head -z -n $((count - made)); cat > /dev/null; } |
            xargs -0 cp --parents -t "$to/$number")
        made=$((made + each)) number=$((number + 1))
    done
}

# The files that itemtree takes of the folder, in its order.
list_files() {
    find "$folder" -mindepth 1 \( -name '.*' -o -type d -name target \) -prune -o -xtype f -name '*.rs' -print | sort
}

# Runs a command for each list, which it reads, here or on machines, and prints in which files their results are, in order.
each_list() {
    rm -rf "$work/lists" "$work/results"
    mkdir "$work/lists" "$work/results"
    if [ -n "${machines-}" ]; then
        list_files | parallel --pipe -N "$each" -k --files --tmpdir "$work/results" --sshlogin "$machines" "set -o pipefail; $1"
    else
        list_files | split -l "$each" -a 6 -d - "$work/lists/"
        cd "$work/lists"
        printf '%s\n' * | xargs -P "$processes" -I {} bash -c "set -o pipefail; { $1; } < {} > ../results/{}"
        find "$work/results" -type f | sort
    fi
}

one_tags() { "$program" tags -o - "$folder" | sed '/^!_TAG_/d'; }

# (sort compares lines without their ends, and itemtree with them: \x0b stands for such an end, behind the tab)
many_tags() {
    each_list "$xargs $program tags -o - | sed '/^!_TAG_/d; s/\$/\\x0b/'" | tr '\n' '\0' |
        sort -m --batch-size=100 -T "$work" --files0-from=- | sed 's/\x0b$//'
}

one_outline() { "$program" outline --json "$folder"; }

many_outline() { each_list "$xargs $program outline --json" | xargs cat; }

one_check() { "$program" check "$folder" || [ $? = 1 ]; }

many_check() { each_list "$xargs sh -c '\"\$0\" check \"\$@\" || [ \$? = 1 ]' $program" | xargs cat; }

# Prints how long a function took, the largest memory of its processes and how much it gives, which must be what the first one gave.
measure() {
    /usr/bin/time -o "$work/time" -f '%e %M' bash -euo pipefail -c "$2" > "$work/given" || { echo "scale.sh: $1 failed" >&2; exit 1; }
    awk -v name="$1" -v bytes="$(wc -c < "$work/given")" '{ printf "%s: %.1f s, %d MB, %s bytes\n", name, $1, $2 / 1024, bytes }' "$work/time"
    [ -e "$work/first" ] || mv "$work/given" "$work/first"
    [ ! -e "$work/given" ] || cmp "$work/first" "$work/given" || is_equal=''
}

run_commands() {
    local command is_equal=1
    list_files | tr '\n' '\0' | xargs -0 stat -L -c %s | awk '{ sum += $1 } END { printf "%d files, %d MB\n", NR, sum / 1e6 }'
    for command in "$@"; do
        rm -f "$work/first"
        [ "${ONE-}" = no ] || measure "$command, one process" "one_$command"
        measure "$command, $processes at a time" "many_$command"
        [ -z "${HOSTS-}" ] || machines=$HOSTS measure "$command, $HOSTS" "many_$command"
    done
    [ -n "$is_equal" ]
}

case ${1-} in
    make)
        [ $# = 4 ] || usage
        make_files "${@:2}"
        ;;
    run)
        [ $# -ge 3 ] || usage
        export program folder work processes=${PROCESSES-$(nproc)} each=${EACH-1000} xargs
        program=$(realpath "$2") folder=$(realpath "$3") xargs="xargs -d '\n' -n $each -x -s 1000000"
        work=$(mktemp -d "${ROOM-/tmp}/itemtree-scale.XXXXXX")
        trap 'rm -rf "$work"' EXIT
        export -f list_files each_list one_tags many_tags one_outline many_outline one_check many_check
        shift 3
        [ $# -gt 0 ] || set -- tags outline check
        run_commands "$@"
        ;;
    *) usage ;;
esac

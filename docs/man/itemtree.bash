# Completions of itemtree for bash.
_itemtree() {
    local word=${COMP_WORDS[COMP_CWORD]} before=${COMP_WORDS[COMP_CWORD - 1]} command=${COMP_WORDS[1]}
    case $before in
        -e | --edition) mapfile -t COMPREPLY < <(compgen -W '2015 2018 2021 2024' -- "$word"); return ;;
        --color) mapfile -t COMPREPLY < <(compgen -W 'auto always never' -- "$word"); return ;;
        --ids) mapfile -t COMPREPLY < <(compgen -W 'on off' -- "$word"); return ;;
        --kind) mapfile -t COMPREPLY < <(compgen -W 'const enum extern-crate field fn macro macro_rules mod static struct trait type union variant' -- "$word"); return ;;
        --excmd) mapfile -t COMPREPLY < <(compgen -W 'pattern number mixed' -- "$word"); return ;;
        --tag-relative) mapfile -t COMPREPLY < <(compgen -W 'no yes always never' -- "$word"); return ;;
        --show) mapfile -t COMPREPLY < <(compgen -W 'page tree imports' -- "$word"); return ;;
    esac
    if ((COMP_CWORD == 1)); then
        mapfile -t COMPREPLY < <(compgen -W 'outline page imports find tags modules changed request serve lsp check -h --help -V --version' -- "$word")
        return
    fi
    [[ $word = -* ]] || return
    case $command in
        outline) mapfile -t COMPREPLY < <(compgen -W '-e --edition --hidden --follow --exclude --cfg --host-cfg --active --no-members --depth --color --json -L --files-from --crate --features --all-features --no-default-features --flat --imports -h --help' -- "$word") ;;
        page) mapfile -t COMPREPLY < <(compgen -W '-e --edition --hidden --follow --exclude --cfg --host-cfg --skip --docs --ids -L --files-from --crate --features --all-features --no-default-features -h --help' -- "$word") ;;
        imports) mapfile -t COMPREPLY < <(compgen -W '-e --edition --hidden --follow --exclude --cfg --host-cfg --active --duplicates --resolve --unresolved --color --json -q --quiet -L --files-from --crate --features --all-features --no-default-features -h --help' -- "$word") ;;
        find) mapfile -t COMPREPLY < <(compgen -W '-e --edition --hidden --follow --exclude --cfg --host-cfg --active --no-members -i --ignore-case --kind --color --json -q --quiet -L --files-from --crate --features --all-features --no-default-features -h --help' -- "$word") ;;
        tags) mapfile -t COMPREPLY < <(compgen -W '-e --edition --hidden --follow --exclude --cfg --host-cfg --active --no-members -o --output -a --append -L --files-from --crate --features --all-features --no-default-features --excmd --fields --tag-relative --bodies -h --help' -- "$word") ;;
        modules) mapfile -t COMPREPLY < <(compgen -W '-e --edition --hidden --follow --exclude --cfg --host-cfg --features --all-features --no-default-features --color --json -q --quiet --orphans -h --help' -- "$word") ;;
        changed) mapfile -t COMPREPLY < <(compgen -W '-e --edition --hidden --follow --exclude --docs --tree --public --cfg --host-cfg --skip --color --json -q --quiet -h --help' -- "$word") ;;
        request) mapfile -t COMPREPLY < <(compgen -W '-e --edition --hidden --follow --exclude --cfg --host-cfg --skip --docs --show --no-bodies -L --files-from -h --help' -- "$word") ;;
        serve) mapfile -t COMPREPLY < <(compgen -W '-h --help' -- "$word") ;;
        lsp) mapfile -t COMPREPLY < <(compgen -W '-e --edition --cfg --host-cfg -h --help' -- "$word") ;;
        check) mapfile -t COMPREPLY < <(compgen -W '-e --edition --cfg --host-cfg --hidden --follow --exclude --color -q --quiet -L --files-from --crate --features --all-features --no-default-features -h --help' -- "$word") ;;
    esac
}
complete -o default -F _itemtree itemtree

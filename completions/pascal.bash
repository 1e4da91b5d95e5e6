# Written by tools/manual from the texts of `pascal help`.
_pascal_files() {
    mapfile -t COMPREPLY < <(compgen -f -- "$1")
    compopt -o filenames
}

_pascal() {
    local word=${COMP_WORDS[COMP_CWORD]} before=${COMP_WORDS[COMP_CWORD-1]} command='' words='' at
    COMPREPLY=()
    for ((at = 1; at < COMP_CWORD; at++)); do
        case ${COMP_WORDS[at]} in compile|list|run|go|explain|check|certify|verify|needs|why|trace|cover|profile|help) command=${COMP_WORDS[at]}; break ;; esac
    done
    case $command:$before in
        run:--stack|run:--heap|run:--steps|go:--stack|go:--heap|go:--steps|why:--stack|why:--heap|why:--steps|trace:--stack|trace:--heap|trace:--steps|trace:--from|trace:--to|trace:--routine|trace:--first|cover:--stack|cover:--heap|cover:--steps|profile:--stack|profile:--heap|profile:--steps) return ;;
        compile:--map|cover:--input) _pascal_files "$word"; return ;;
    esac
    case $command in
        '') words='compile list run go explain check certify verify needs why trace cover profile help -h --help -V --version' ;;
        help) words='compile list run go explain check certify verify needs why trace cover profile help' ;;
        compile) words='-h --help --map' ;;
        list) words='-h --help --source' ;;
        run) words='--stack --heap --steps -h --help --usage' ;;
        go) words='--stack --heap --steps -h --help --usage' ;;
        explain) words='-h --help' ;;
        check) words='-h --help --json --first --no-warnings' ;;
        certify) words='-h --help' ;;
        verify) words='-h --help' ;;
        needs) words='-h --help' ;;
        why) words='--stack --heap --steps -h --help --all --json' ;;
        trace) words='--stack --heap --steps -h --help --from --to --routine --first --json' ;;
        cover) words='--stack --heap --steps -h --help --input --lcov' ;;
        profile) words='--stack --heap --steps -h --help' ;;
    esac
    if [[ -n $command && $command != explain && $command != help && $word != -* ]]; then
        _pascal_files "$word"
    else
        mapfile -t COMPREPLY < <(compgen -W "$words" -- "$word")
    fi
}
complete -F _pascal pascal

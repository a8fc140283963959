# Completion of bgp for bash. Made by packaging/make-completions from the help of the program.
_bgp() {
    local word="${COMP_WORDS[COMP_CWORD]}" before="${COMP_WORDS[COMP_CWORD - 1]}" words="" files=no
    COMPREPLY=()
    # Of `--flag=value` bash makes three words.
    [ "$before" != = ] || before="${COMP_WORDS[COMP_CWORD - 2]}"
    [ "$word" != = ] || word=""
    case "$before" in
        *[\<\>] | --opens) files=yes ;;
        --drop | --pass | --paths) return ;;
        *)
            if [ "$COMP_CWORD" = 1 ]; then
                words='show explain check narrow clean to-hex from-hex loop help -h --help -V --version'
            else
                case "${COMP_WORDS[1]}" in
                    show) words='--hex --as4 --ip4 --ip6 --internal --refresh --enhanced-refresh --paths --opens --only-faults --json -h --help' ;;
                    explain) words='--hex --as4 --ip4 --ip6 --internal --refresh --enhanced-refresh --paths --opens --only-faults --json -h --help' ;;
                    check) words='--hex --as4 --ip4 --ip6 --internal --refresh --enhanced-refresh --paths --opens -h --help' ;;
                    narrow) words='--ip4 --ip6 --internal --refresh --enhanced-refresh --paths --opens -h --help' ;;
                    clean) words='--hex --as4 --ip4 --ip6 --internal --refresh --enhanced-refresh --opens --drop --drop-unknown --pass -h --help' ;;
                    to-hex) words='--refresh -h --help' ;;
                    from-hex) words='-h --help' ;;
                    loop) words='--tcp --trace -h --help' files=yes ;;
                    help) words='show explain check narrow clean to-hex from-hex loop' ;;
                esac
            fi
            ;;
    esac
    [ -z "$words" ] || mapfile -t COMPREPLY < <(compgen -W "$words" -- "$word")
    if [ "$files" = yes ] && [[ "$word" != -* ]]; then
        compopt -o filenames 2>/dev/null
        mapfile -t -O "${#COMPREPLY[@]}" COMPREPLY < <(compgen -f -- "$word")
    fi
}
complete -F _bgp bgp

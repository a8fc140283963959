# Completion of bgp_speaker for bash. Made by packaging/make-completions from the help of the program.
_bgp_speaker() {
    local word="${COMP_WORDS[COMP_CWORD]}" before="${COMP_WORDS[COMP_CWORD - 1]}" words="" files=no
    COMPREPLY=()
    # Of `--flag=value` bash makes three words.
    [ "$before" != = ] || before="${COMP_WORDS[COMP_CWORD - 2]}"
    [ "$word" != = ] || word=""
    case "$before" in
        *[\<\>] | --send) files=yes ;;
        --from | --hold | --id | --local-as | --messages | --peer-as | --seconds) return ;;
        *) words='--local-as --peer-as --id --hold --as4 --ip4 --ip6 --listen --from --send --messages --seconds --json -h --help -V --version' ;;
    esac
    [ -z "$words" ] || mapfile -t COMPREPLY < <(compgen -W "$words" -- "$word")
    if [ "$files" = yes ] && [[ "$word" != -* ]]; then
        compopt -o filenames 2>/dev/null
        mapfile -t -O "${#COMPREPLY[@]}" COMPREPLY < <(compgen -f -- "$word")
    fi
}
complete -F _bgp_speaker bgp_speaker

# Completion of bgp_guard_run for bash. Made by packaging/make-completions from the help of the program.
_bgp_guard_run() {
    local word="${COMP_WORDS[COMP_CWORD]}" before="${COMP_WORDS[COMP_CWORD - 1]}" words="" files=no
    COMPREPLY=()
    # Of `--flag=value` bash makes three words.
    [ "$before" != = ] || before="${COMP_WORDS[COMP_CWORD - 2]}"
    [ "$word" != = ] || word=""
    case "$before" in
        *[\<\>] | --peers) files=yes ;;
        --first-as | --listen | --longest-path | --metrics | --most | --most-communities | --most-of-peer | --pass | --peer | --room | --seconds | --sessions | --to) return ;;
        *) words='--listen --to --inner-connects --peer --peers --control --pass --one-way --any-next-hop --without-local-pref --any-first-as --first-as --longest-path --most-communities --room --most --most-of-peer --times --json --metrics --sessions --seconds -h --help -V --version' ;;
    esac
    [ -z "$words" ] || mapfile -t COMPREPLY < <(compgen -W "$words" -- "$word")
    if [ "$files" = yes ] && [[ "$word" != -* ]]; then
        compopt -o filenames 2>/dev/null
        mapfile -t -O "${#COMPREPLY[@]}" COMPREPLY < <(compgen -f -- "$word")
    fi
}
complete -F _bgp_guard_run bgp_guard_run

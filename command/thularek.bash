# Completions of thularek for bash: source this file, or put it below /usr/share/bash-completion/completions as `thularek`.
_thularek() {
    local word=${COMP_WORDS[COMP_CWORD]} before=${COMP_WORDS[COMP_CWORD - 1]} command=${COMP_WORDS[1]:-} words="" files=""
    COMPREPLY=()
    case $before in
    -o | --output) files='wav' ;;
    --bank | --with) files='sf2' ;;
    --song) files='mid' ;;
    --gain) words='0 -1 -2 -3 -6 -9 -12' ;;
    --tail) words='0 5 10 30 60' ;;
    *)
        if [ "$COMP_CWORD" -eq 1 ]; then
            words='demo render check list help --help --version' files='sf2'
        else
            case $command in
            demo) words='--output --bank --song --gain --tail --force --help' ;;
            check) words='--with --help' files='sf2 mid' ;;
            list) words='--json --help' files='sf2' ;;
            help) words='demo render check list' ;;
            *) words='--output --gain --tail --force --help' files='sf2 mid' ;;
            esac
        fi
        ;;
    esac
    local reply ending
    while IFS= read -r reply; do COMPREPLY+=("$reply"); done < <(compgen -W "$words" -- "$word")
    for ending in $files; do
        while IFS= read -r reply; do COMPREPLY+=("$reply"); done < <(compgen -f -- "$word" | grep -i "\.$ending\$")
    done
    [ -z "$files" ] || while IFS= read -r reply; do COMPREPLY+=("$reply/"); done < <(compgen -d -- "$word")
}
complete -o nospace -F _thularek thularek

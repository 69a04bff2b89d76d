# Completion of zealfs for bash: commands, then images and files, then paths in the image.
_zealfs() {
    local word="${COMP_WORDS[COMP_CWORD]}" before="${COMP_WORDS[COMP_CWORD-1]}"
    local program="${COMP_WORDS[0]}" words=() i
    COMPREPLY=()
    # the words so far without the options
    for ((i = 1; i < COMP_CWORD; i++)); do
        case "${COMP_WORDS[i]}" in
            --date | --page) ((i++)) ;;
            -?*) ;;
            *) words+=("${COMP_WORDS[i]}") ;;
        esac
    done
    # links has a word of its own before the image
    local image=1
    [ "${words[0]:-}" = links ] && image=2
    if [ "$before" = --date ]; then
        mapfile -t COMPREPLY < <(compgen -W "$(date +%F)" -- "$word")
    elif [ "$before" = --page ]; then
        mapfile -t COMPREPLY < <(compgen -W "256 512 1024" -- "$word")
    elif [ ${#words[@]} -eq 0 ]; then
        mapfile -t COMPREPLY < <(compgen -W "$("$program" commands 2> /dev/null) help --json --version" -- "$word")
    elif [[ "$word" == -?* ]]; then
        mapfile -t COMPREPLY < <(compgen -W "$("$program" "${words[0]}" --help 2> /dev/null | sed -n 1p | grep -oE -- '-[a-z0-9-]+') --json" -- "$word")
    elif [[ $image -eq 2 && ${#words[@]} -eq 1 ]]; then
        mapfile -t COMPREPLY < <(compgen -W "show find check write" -- "$word")
    elif [[ "$word" == /* && ${#words[@]} -gt $image ]]; then
        # below the directory that is written so far; names may have spaces
        local directory="${word%/*}"
        mapfile -t COMPREPLY < <("$program" ls "${words[image]}" "${directory:-/}" 2> /dev/null | sed "s|^|$directory/|" | grep -F -- "$word")
        [[ ${#COMPREPLY[@]} -eq 1 && "${COMPREPLY[0]}" == */ ]] && compopt -o nospace 2> /dev/null
        [ ${#COMPREPLY[@]} -eq 0 ] && mapfile -t COMPREPLY < <(compgen -f -- "$word")
        # what is completed is quoted as the shell wants it
        for i in "${!COMPREPLY[@]}"; do COMPREPLY[i]="$(printf '%q' "${COMPREPLY[i]}")"; done
    else
        mapfile -t COMPREPLY < <(compgen -f -- "$word")
        compopt -o filenames 2> /dev/null
    fi
}
complete -F _zealfs zealfs

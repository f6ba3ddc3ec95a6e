# bash completion for clpq(1), commands, options and files, and clpq-lint(1), files
_clpq() {
    local word=${COMP_WORDS[COMP_CWORD]} before=${COMP_WORDS[COMP_CWORD-1]} it files=
    COMPREPLY=()
    if [ "$COMP_CWORD" -eq 1 ]; then
        mapfile -t COMPREPLY < <(compgen -W 'run gen' -- "$word")
        return
    fi
    [ "${COMP_WORDS[1]}" = run ] || return 0
    # behind -- every word is a file
    for it in "${COMP_WORDS[@]:2:COMP_CWORD-2}"; do
        [ "$it" = -- ] && files=yes
    done
    if [ -z "$files" ]; then
        case $before in
            --steps | --pivots | --answers) return 0 ;;
        esac
        if [[ $word == -* ]]; then
            mapfile -t COMPREPLY < <(compgen -W '--steps --pivots --answers --' -- "$word")
            return
        fi
    fi
    mapfile -t COMPREPLY < <(compgen -d -S / -- "$word"; compgen -f -X '!*.pl' -- "$word")
    compopt -o filenames -o nospace 2> /dev/null
    return 0
}
complete -F _clpq clpq

_clpq_lint() {
    local word=${COMP_WORDS[COMP_CWORD]}
    mapfile -t COMPREPLY < <(compgen -d -S / -- "$word"; compgen -f -X '!*.pl' -- "$word")
    compopt -o filenames -o nospace 2> /dev/null
    return 0
}
complete -F _clpq_lint clpq-lint

# Completions of prefixes(1) for bash.
_prefixes()
{
    local commands='route complete near block tree segment pack combine stats draw help'
    local word=${COMP_WORDS[COMP_CWORD]} command=${COMP_WORDS[1]} options=
    COMPREPLY=()
    if [ "$COMP_CWORD" -eq 1 ]; then
        COMPREPLY=($(compgen -W "$commands --help --version" -- "$word"))
        return
    fi
    case $command in
        complete) options='-n --most --json --lines --null --help' ;;
        near) options='-k --edits -n --most --json --lines --null --help' ;;
        tree) options='--drop --json --lines --null --help' ;;
        combine)
            options='-o --output --as-lines --null --help'
            if [ "$COMP_CWORD" -eq 2 ]; then
                COMPREPLY=($(compgen -W 'union intersection difference --help' -- "$word")) && return
            fi
            ;;
        draw) options='--dot --json --null --help' ;;
        route | block | segment) options='--json --lines --null --help' ;;
        stats) options='--json --null --help' ;;
        pack) options='--null --help' ;;
        help) COMPREPLY=($(compgen -W "${commands% help}" -- "$word")) && return ;;
    esac
    case $word in
        -*) COMPREPLY=($(compgen -W "$options" -- "$word")) ;;
        *) compopt -o filenames 2> /dev/null && mapfile -t COMPREPLY < <(compgen -f -- "$word") ;;
    esac
} && complete -F _prefixes prefixes

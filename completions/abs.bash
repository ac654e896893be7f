# Completion of the words of abs for bash: source this file, or put it among the completions of your bash.

_abs() {
    local word=${COMP_WORDS[COMP_CWORD]} before=${COMP_WORDS[COMP_CWORD - 1]}
    case $before in
        --workers) mapfile -t COMPREPLY < <(compgen -W "$(echo {1..16})" -- "$word") ;;
        --depth) mapfile -t COMPREPLY < <(compgen -W "1 2 3" -- "$word") ;;
        --steps | --facts | --make) COMPREPLY=() ;;
        *)
            case $word in
                -*) mapfile -t COMPREPLY < <(compgen -W "--check --trace --workers --depth --steps --facts --make" -- "$word") ;;
                *)
                    compopt -o filenames 2>/dev/null
                    mapfile -t COMPREPLY < <(compgen -d -- "$word"; compgen -f -X '!*.abs' -- "$word")
                    ;;
            esac
            ;;
    esac
}

complete -F _abs abs

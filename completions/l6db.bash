# Completes the words of l6db in bash.

_l6db() {
    local word=${COMP_WORDS[COMP_CWORD]} before=${COMP_WORDS[COMP_CWORD - 1]}
    COMPREPLY=()
    case $before in
        --store | --steps | --output) return ;; # a number
        --prompt) return ;; # a text
    esac
    case $word in
        -*) mapfile -t COMPREPLY < <(compgen -W '--input -x --batch --echo --prompt --store --steps --output --help --version' -- "$word") ;;
        *) compopt -o default ;; # a file
    esac
}

complete -F _l6db l6db

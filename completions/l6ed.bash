# Completes the words of l6ed in bash.

_l6ed() {
    local word=${COMP_WORDS[COMP_CWORD]}
    COMPREPLY=()
    [ "$COMP_CWORD" = 1 ] || return # one word alone
    mapfile -t COMPREPLY < <(compgen -W 'lsp dap --help --version' -- "$word")
}

complete -F _l6ed l6ed

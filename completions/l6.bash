# Completes the words of l6 in bash.

_l6() {
    local word=${COMP_WORDS[COMP_CWORD]} before=${COMP_WORDS[COMP_CWORD - 1]} verb=${COMP_WORDS[1]-} choices
    COMPREPLY=()
    case $before in
        *[\<\>]* | --name)
            compopt -o default # a file
            return
            ;;
        --store | --steps | --output | --levels | --units | --first | --piece) return ;; # a number
    esac
    case $COMP_CWORD:$verb in
        1:*) choices='asm list check run load renew debug trace help --help --version' ;;
        2:help) choices='asm list check run load renew debug trace' ;;
        *:run) choices='--store --steps --output --explain --help' ;;
        *:load | *:debug) choices='--store --steps --output --help' ;;
        *:trace) choices='--store --any-place --levels --units --first --piece --json --help' ;;
        *:check) choices='--long --name --help' ;;
        *:asm | *:list | *:renew) choices='--help' ;;
        *) choices='' ;;
    esac
    mapfile -t COMPREPLY < <(compgen -W "$choices" -- "$word")
}

complete -F _l6 l6

# shellcheck shell=sh disable=SC2154
# Starts a session of l6db. This file is sourced, with $program set to the engine and $terminal to this folder.
#
# At a terminal the engine is spoken to by way of l6db.py, where there is Python 3; else by way of rlwrap, where
# there is that, which gives editing and a history, and which the engine for Node has of its own; else it is run as it
# is. Over pipes, with --batch, --echo, --prompt, --help or --version, with L6DB_PLAIN set or at a dumb terminal it is
# always run as it is.

# Whether the words and the terminal are those of a session that somebody types.
is_typed() {
    [ -t 0 ] && [ -t 1 ] && [ -z "${L6DB_PLAIN-}" ] && [ "${TERM-dumb}" != dumb ] || return 1
    for word; do
        case $word in
            --batch | --echo | --prompt | --prompt=* | -h | --help | -V | --version) return 1 ;;
        esac
    done
    [ $# -gt 0 ]
}

# Runs the engine with these words, or what stands between it and the terminal.
start_session() {
    if is_typed "$@"; then
        if command -v python3 > /dev/null; then
            exec python3 -I "$terminal/l6db.py" "$program" "$@"
        elif grep -q '^#!/usr/bin/env node$' "$program"; then
            exec "$program" "$@"
        elif command -v rlwrap > /dev/null; then
            history=${XDG_STATE_HOME:-${HOME-}/.local/state}/l6
            mkdir -p "$history" 2> /dev/null
            # (rlwrap hands Ctrl-C to its child, which would end the session)
            # shellcheck disable=SC2016 # (the shell that is called expands it)
            exec rlwrap -C l6db -H "$history/l6db_history" -f "$terminal/words" \
                sh -c 'trap "" INT; exec "$@"' sh "$program" "$@"
        fi
        trap '' INT # (Ctrl-C would end the session, and all that is set in it)
    fi
    exec "$program" "$@"
}

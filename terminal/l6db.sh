#!/bin/sh
# Starts a session of l6db where it is installed: the engine, or what stands between it and a terminal.
set -u
place=$(dirname -- "$(dirname -- "$(readlink -f -- "$0")")")
terminal=$place/share/l6/terminal
# shellcheck disable=SC2034 # (what is sourced reads it)
program=$place/lib/l6/l6db
# shellcheck source=terminal/start.sh
. "$terminal/start.sh"
start_session "$@"

# shellcheck shell=sh disable=SC2154
# Remembers which program belongs to the sources, so that ./l6 need not sum a thousand files at each call.
# This file is sourced after program.sh.
#
# The note has the checkout, the system, the program, and a sum of the names, inodes, sizes and times of all
# files that were summed: of the sources and of dist/. A file that is edited has another time of its last
# change (ctime), which nobody can set. So a note that is right in all of these was made of the same files. It
# is not written while one of them is so new that an edit might have the same time.
#
# The note is in the user's folder for caches. Where there is none, or where find is not GNU's and can't print
# times, there is no note, and everything is summed.

note=${XDG_CACHE_HOME:-${HOME:+$HOME/.cache}}
case $note in
    /*) note=$note/l6/$program_name ;;
    *) note='' ;;
esac
fresh='3 seconds ago'
nothing=e3b0c44298fc1c149afbf4c8996fb92427ae41e4649b934ca495991b7852b855 # the sum of no bytes

# Prints a line for each file that a program and its provenance depend on; further arguments go to find.
list_files() (
    cd "$top" || exit 1
    find crates.txt HANDLES crates/*/src crates/*/specs crates/*/proofs dist/l6* -name '.*' -prune -o -type f \
        \( -name '*.rt' -o -name '*.antt' -o -path 'dist/*' -o -path crates.txt -o -path HANDLES \) \
        "$@" -printf '%p %i %m %s %T@ %C@\n' 2> /dev/null
)

# Prints a sum of these lines, if find can print them.
sum_list() {
    listed=$(list_files | only_sum) && [ "$listed" != "$nothing" ] && echo "$listed"
}

# Prints what a note says of a program as the files are now.
note_of() {
    files=$(sum_list) && printf '%s\n' "$top" "$(uname -nsm)" "$1" "$files"
}

# Sets $program to the one of the note, if the note is right.
recall_program() {
    [ -n "$note" ] && [ -f "$note" ] || return 1
    { read -r _ && read -r _ && IFS= read -r program; } < "$note" || return 1
    case $program in
        "$top/dist/"*) ;;
        *) return 1 ;;
    esac
    noted=$(note_of "$program") && [ "$noted" = "$(cat "$note")" ] && starts "$program"
}

# Finds the program, and notes it. One that was built here isn't noted, since it depends on the toolchain,
# too.
find_and_note_program() {
    before=''
    [ -z "$note" ] || before=$(sum_list)
    find_program || return 1
    case $before:$program in
        ?*:"$top/dist/"*) [ -n "$(list_files -newerct "$fresh")" ] || write_note 2> /dev/null ;;
    esac
    return 0
}

# Writes the note, if the files are still those that were there before.
write_note() {
    [ "$(sum_list)" = "$before" ] && mkdir -p "${note%/*}" || return 0
    if ! { note_of "$program" > "$note.$$" && mv -f "$note.$$" "$note"; }; then
        rm -f "$note.$$"
    fi
}

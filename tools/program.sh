# shellcheck shell=sh
# Finds the program l6 that belongs to the sources of this checkout. This file is sourced, with $top set to
# the top of the repository; with $program_name set to l6db or l6ed it finds that program.
#
# A program has a provenance beside it, a file that says what it was made from:
#
#     toolchain LINE    what `rt version` printed
#     WORD ..           further lines for the programs of other systems: what they were made of besides
#     sources SUM       of the lines above, and of the names and contents of all files that the prover reads
#     program SUM       of the program itself
#
# A program belongs to the sources if its provenance is, byte for byte, what the sources and the program give
# now. All sources are summed for that (SHA-256).
#
# dist/ has programs for several systems. Which of them are tried here is said by candidates().
# dist/l6.sources has the sum of each source, so that those that differ can be named.

case ${program_name-} in
    l6db | l6ed) ;;
    *) program_name=l6 ;;
esac
distributed=${top:?}/dist/$program_name
built=$top/crates/$program_name/out/$program_name
source_list=$top/dist/l6.sources

complain() {
    echo "$program_name: $1" >&2
}

# The command that prints sums. (macOS has another one, of three words.)
if command -v sha256sum > /dev/null; then
    summing=sha256sum
else
    summing='shasum -a 256'
fi

# Prints the names of all files that the prover reads, each ended by a zero byte. Hidden files and those that
# editors leave, as .lib.rt.swp and lib.rt~, are none of them.
source_names() (
    cd "$top" || exit 1
    find crates.txt HANDLES crates/*/src crates/*/specs crates/*/proofs -name '.*' -prune -o -type f \
        \( -name '*.rt' -o -name '*.antt' -o -path crates.txt -o -path HANDLES \) -print0 |
        LC_ALL=C sort -z
)

# Prints the sum and the name of each source.
# shellcheck disable=SC2086
source_sums() (
    cd "$top" && source_names | xargs -0 $summing
)

# Sets $all_sources to the sum of these sums and names, if it isn't set.
sum_sources() {
    [ -n "${all_sources-}" ] || all_sources=$(source_sums | only_sum)
}

# Prints the sum of standard input.
only_sum() {
    sum=$($summing) && [ ${#sum} -gt 64 ] && printf '%s\n' "${sum%% *}"
}

# Prints the provenance of a program that was made from the sources as they are now, and of what the lines
# say.
provenance_of() {
    sum_sources && sources=$(printf '%s\n%s\n' "$2" "$all_sources" | only_sum) && itself=$(only_sum < "$1") ||
        return 1
    printf '%s\nsources %s\nprogram %s\n' "$2" "$sources" "$itself"
}

# Sets $made_of to the first lines of a program's provenance, and $named to the sum of the program that it
# names.
read_provenance() {
    made_of='' named=''
    [ -f "$1.provenance" ] || return 1
    while IFS= read -r line; do
        case $line in
            "sources "*) ;;
            "program "*) named=${line#program } ;;
            *) made_of=$made_of${made_of:+
}$line ;;
        esac
    done < "$1.provenance"
}

# Prints the toolchain's line of a program's provenance.
toolchain_of() {
    sed -n '1s/^toolchain //p' "$1.provenance" 2> /dev/null
}

# Whether a program belongs to the sources.
belongs() {
    [ -f "$1" ] && read_provenance "$1" || return 1
    provenance=$(provenance_of "$1" "$made_of" && echo end) || return 1
    [ "$provenance" = "$(cat "$1.provenance" && echo end)" ]
}

# Whether a program is the one that its provenance names, from whatever sources.
is_whole() {
    read_provenance "$1" && [ -n "$named" ] && [ -f "$1" ] && [ "$(only_sum < "$1")" = "$named" ]
}

# Prints the names of the programs of dist/ that are for this system, those first that are tried first.
candidates() {
    case $(uname -sm) in
        "Linux x86_64") echo "$program_name $program_name-static $program_name.mjs" ;;
        "Linux aarch64") echo "$program_name-aarch64 $program_name.mjs" ;;
        *) echo "$program_name.mjs" ;;
    esac
}

# Runs a program with the arguments given.
start() {
    case $1 in
        *.mjs) node "$@" ;;
        *) "$@" ;;
    esac
}

# Whether a program starts on this system. One that is linked with a C library needs it in its version or
# later.
starts() {
    start "$1" --version < /dev/null > /dev/null 2>&1
    case $?:$program_name in
        64:l6 | 0:l6db | 0:l6ed) return 0 ;;
    esac
    return 1
}

# Says why the programs of dist/ are not run; the arguments are the names of those for this system.
explain() {
    if [ "$*" = "$program_name.mjs" ] && ! command -v node > /dev/null; then
        complain "dist/ has programs for Linux on x86_64 and aarch64, and this is $(uname -sm)"
        complain "dist/$* is for every system that has Node (https://nodejs.org), but node is not on the path"
    elif ! is_whole "$top/dist/$1"; then
        complain "dist/$1 is not the program that dist/$1.provenance names: it is missing, altered or incomplete"
    elif belongs "$top/dist/$1"; then
        complain "dist/$1 does not start on this system"
    else
        complain "dist/$1 was not made from the sources in this checkout"
        explain_sources
        for name in "$@"; do
            if is_whole "$top/dist/$name" && starts "$top/dist/$name"; then
                complain "dist/$name itself runs as it is, whatever the sources say"
                break
            fi
        done
    fi
}

# Names the first sources that differ from those that the programs of dist/ were made from.
explain_sources() {
    [ -f "$source_list" ] || return 0
    { cat "$source_list"; source_sums; } | LC_ALL=C sort | uniq -u | sed 's/^[^ ]*  //' | LC_ALL=C sort -u | {
        count=0
        while IFS= read -r name; do
            count=$((count + 1))
            if [ "$count" -gt 3 ]; then
                continue
            elif [ ! -e "$top/$name" ]; then
                complain "  $name is missing"
            elif grep -qF "  $name" "$source_list"; then
                complain "  $name has changed"
            else
                complain "  $name is new"
            fi
        done
        [ "$count" -le 3 ] || complain "  and $((count - 3)) more files differ"
    }
}

# Whether the toolchain that is here proved and built a program from the sources.
is_built_here() {
    [ -f "$1.provenance" ] && [ "$(rt version 2> /dev/null)" = "$(toolchain_of "$1")" ] && belongs "$1"
}

# Sets $program to one that belongs to the sources and starts here; proves and builds it if there is none.
# shellcheck disable=SC2086
find_program() {
    names=$(candidates)
    for name in $names; do
        program=$top/dist/$name
        belongs "$program" && starts "$program" && return
    done
    program=$built
    if is_built_here "$program"; then
        is_whole "$distributed" || explain $names
        return 0
    fi
    explain $names
    prove_program
}

# Proves and builds the program of the sources, and sets $program to it.
prove_program() {
    program=$built
    for tool in rt python3; do
        if ! command -v "$tool" > /dev/null; then
            complain "$tool is not on the path; it is needed to prove and build the program (README.md)"
            return 1
        fi
    done
    complain "proving and building the program; from nothing this takes some 25 minutes on four processors"
    all_sources=''
    toolchain=$(rt version) && sum_sources || return 1
    before=$all_sources
    if ! python3 "$top/tools/prove.py" "$program_name"; then
        complain "the program was not built"
        return 1
    fi
    # What was edited meanwhile may be in the program or not.
    all_sources=''
    sum_sources || return 1
    if [ "$all_sources" != "$before" ]; then
        complain "the sources were edited meanwhile, so the program may not belong to them; call again"
        return 1
    fi
    provenance_of "$program" "toolchain $toolchain" > "$program.provenance.new" &&
        mv -f "$program.provenance.new" "$program.provenance"
}

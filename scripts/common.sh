# shellcheck shell=bash
# Sourced by the other scripts: their help, how they take a mesh, what they say where something is missing, and how they explain a refusal.
root=$(CDPATH='' cd "$(dirname "${BASH_SOURCE[0]}")/.." && pwd)
# a folder that a script makes and removes when it ends, never one that its caller has set, and the jobs that it runs in the background
made='' background=''
script=$root/scripts/${0##*/}

# Ends these jobs and removes this folder when the script ends. The script's status stays what it is: under 'set -e' a command that fails here, such as
# the end of a job that has ended, would take its place.
leave() {
    # shellcheck disable=SC2086 # several jobs are several words
    [ -z "$background" ] || kill $background 2>/dev/null || true
    rm -rf "$made" || true
}

# Answers --help, by the script's head comment, and --version, by the file VERSION, among a script's arguments, and ends the script.
about() {
    local argument
    for argument; do
        case $argument in
        --help)
            sed -n '2,${/^#/!q;s/^# \{0,1\}//;p}' "$script"
            exit
            ;;
        --version)
            echo "covetureen $(cat "$root/VERSION")"
            exit
            ;;
        esac
    done
}

# Says in one line why a script cannot go on, and ends it.
fail() {
    echo "$*" >&2
    exit 1
}

# The same where it was called in a wrong way; without an argument by the usage line of the script's head comment.
usage() {
    if [ $# -gt 0 ]; then
        echo "usage: $*" >&2
    else
        sed -n '2,${/^#/!q;s/^# \(usage: \)/\1/p}' "$script" >&2
    fi
    exit 2
}

# Ends the script where a tool that it needs is not installed.
need() {
    local from
    command -v "$1" >/dev/null && return
    case $1 in
    rt) from="it is the command of the Rattle kit, in the kit's folder bin/, which belongs on PATH" ;;
    cargo | rustc) from="it comes with Rust: 'apt-get install cargo' on Debian" ;;
    cc | c++) from="it comes with a C++ compiler: 'apt-get install g++' on Debian" ;;
    dot) from="it comes with Graphviz: 'apt-get install graphviz' on Debian" ;;
    esac
    fail "$1 is not installed: $from"
}

# Ends the script where it may not write to a folder. Makes the folder where it is not there.
need_folder() {
    { mkdir -p "$1" && [ -w "$1" ]; } 2>/dev/null ||
        fail "$1: cannot write here, where programs are built; use a copy of the repository that you may write to"
}

# Ends the script where a file cannot be read.
need_file() {
    [ -e "$1" ] || fail "$1: no such file"
    [ ! -d "$1" ] || fail "$1: this is a folder, not a file"
    [ -r "$1" ] || fail "$1: no permission to read this file"
}

# Makes the script's folder for temporary files, `made`, which is removed when the script ends.
make_folder() {
    [ -z "$made" ] || return 0
    made=$(mktemp -d)
    trap leave EXIT
}

# Takes a mesh from an argument: FILE.table, FILE.book, or - for standard input. It sets `mesh`, a readable file whose name ends in .table or .book, and
# `shown`, the name of the mesh in messages. With these the script calls others: scripts/book "$shown" <"$mesh".
take_mesh() {
    mesh=${1-} shown=${1-}
    case $mesh in
    --*) usage ;;
    *.table | *.book) need_file "$mesh" ;;
    -) take_input ;;
    *) usage ;;
    esac
}

# Standard input is a book where its first byte is 1, as in every book, and else a table.
take_input() {
    make_folder
    cat >"$made/mesh.table"
    mesh=$made/mesh.table
    [ "$(head -c 1 "$mesh" | od -An -tx1 | tr -d ' ')" = 01 ] || return 0
    mesh=$made/mesh.book
    mv "$made/mesh.table" "$mesh"
}

# Takes a mesh from one such argument, or from arguments that are the hexadecimal bytes of a book.
take_mesh_or_bytes() {
    local bytes
    bytes=$(printf '%s' "$@" | tr -d ' \n')
    if [[ $# -gt 0 && $bytes =~ ^([0-9a-fA-F]{2})+$ ]]; then
        make_folder
        mesh=$made/mesh.book shown=$*
        printf '%b' "$(sed 's/../\\x&/g' <<<"$bytes")" >"$mesh"
    else
        [ $# -eq 1 ] || usage
        take_mesh "$1"
    fi
}

# Runs a program of crates/ on standard input, proved and built. With COVETUREEN_PROGRAMS=reference the second implementation takes its place: so the
# gate tests what the scripts make of a program's lines before any program is proved. With COVETUREEN_PROGRAMS=built it is the program that stands in
# crates/, as rt ci has just proved and built it.
program() {
    prepare "$1"
    run_program "$1"
}

# The two halves of that, for a program that is run more than once.
prepare() {
    case ${COVETUREEN_PROGRAMS-} in
    reference) ;;
    built) [ -x "$root/crates/$1/out/$1" ] || fail "crates/$1/out/$1 is not built" ;;
    *) "$root/scripts/prove" "$1" </dev/null ;;
    esac
}
run_program() {
    if [ "${COVETUREEN_PROGRAMS-}" = reference ]; then
        "$root/scripts/reference" "$1"
    else
        "$root/crates/$1/out/$1"
    fi
}

# The lines with data of a table, each after its line number: the first has the nodes, and the one after it link 0. A book has none.
data_lines() {
    case $1 in
    *.table) LC_ALL=C awk -v part=data -f "$root/scripts/table.awk" <"$1" ;;
    esac
}

# The site comments of a table, in UTF-8; a table that is not in UTF-8 is in Latin-1, as some editors write it. A book has none.
site_comments() {
    case $1 in
    *.table) as_utf8 "$1" | LC_ALL=C awk -v part=sites -f "$root/scripts/table.awk" ;;
    esac
}
as_utf8() {
    if iconv -f UTF-8 -t UTF-8 <"$1" >/dev/null 2>&1; then cat <"$1"; else iconv -f LATIN1 -t UTF-8 <"$1"; fi
}

# The cells of a refusal's row in README.md, by tabs: what it is, its place, what to look at.
refusal_row() {
    awk -F ' *[|] *' -v number="$1" '$1 == "" && $2 == number { print $3 "\t" $4 "\t" $5; exit }' "$root/README.md"
}

# Explains a refusal, by its number and place, on stderr: its row in README.md and, where the mesh was taken from a table, FILE, the lines to look at.
# CALL is the session call that met it.
explain() {
    local number=$1 place=$2 file=${3-} call=${4-} what where look
    IFS=$'\t' read -r what where look <<<"$(refusal_row "$number")"
    printf '%s\n' "refusal $number: $what" "  place $place: $where" "  look at: $look" >&2
    data_lines "$file" |
        NAME=${shown-$file} awk -v number="$number" -v place="$place" -v call="$call" -f "$root/scripts/explain.awk" >&2
}

# Keeps the lines of a script for users in a file; where it fails, shows them beside what it says, and ends with its status.
keep() {
    local lines=$1 status=0
    shift
    "$@" >"$lines" || status=$?
    [ "$status" -eq 0 ] || { cat "$lines" >&2 && exit "$status"; }
}

# Explains the refusal that a program's lines end with and ends the script with status 1; where they end with none it does nothing.
end_refused() {
    local lines=$1 mesh=$2 number place
    read -r number place <<<"$(sed -n 's/.* refused \([0-9]* [0-9]*\)$/\1/p' "$lines")"
    [ -n "$number" ] || return 0
    explain "$number" "$place" "$mesh"
    exit 1
}

# Explains that the mesh taken has no such link, and ends the script.
end_without_link() {
    explain 12 "$1" "$mesh"
    exit 1
}

# Runs a command, and says in one line on stderr what is being done once that has taken two seconds: WORDS COMMAND..
progress() {
    local words=$1 status=0 timer
    shift
    # The signal that ends this job ends its sleep too, which would go on by itself.
    {
        trap 'kill "$!"' TERM
        sleep "${PROGRESS_AFTER-2}" >/dev/null 2>&1 &
        wait "$!" && echo "$words .." >&2
    } &
    timer=$!
    "$@" || status=$?
    kill "$timer" 2>/dev/null || true
    wait "$timer" 2>/dev/null || true
    return "$status"
}

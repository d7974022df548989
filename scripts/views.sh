# shellcheck shell=bash
# Sourced after common.sh by the scripts that show a mesh to people and other programs: what they make of the programs' lines, which are in files.

# Runs the awk files of scripts/ that are named, by bytes, so that every awk writes the same.
by_awk() {
    local files=() role
    for role; do files+=(-f "$root/scripts/$role.awk"); done
    LC_ALL=C awk "${files[@]}"
}

# The name of a mesh before a message, as it was given; for the bytes of a book none.
title_of() {
    case $1 in
    - | *.table | *.book) echo "$1" ;;
    esac
}

# Prints all parts and bridging links of a mesh, by table line: FILE SHOWN SURVEY-LINES.
faults() {
    local file=$1 lines=$3
    { site_comments "$file" && data_lines "$file" && cat "$lines"; } |
        shown=$(title_of "$2") by_awk sites words faults
}

# Prints the verdict and the routes of a mesh, or all that is the matter with it: FILE SHOWN LISTING SURVEY-LINES.
routes() {
    local file=$1 shown=$2
    { site_comments "$file" && cat "$3" "$4"; } | by_awk sites words lines plan.routes
    faults "$file" "$shown" "$4"
}

# Prints the same facts as one JSON object: FILE LISTING SURVEY-LINES SHOW-LINES.
json() {
    local number
    number=$(sed -n 's/^refused \([0-9]*\) .*/\1/p' "$2")
    { site_comments "$1" && cat "$2" "$3" && grep '^mesh \|^link ' "$4"; } |
        meaning=$([ -z "$number" ] || refusal_row "$number" | cut -f 1) by_awk sites lines plan.json
}

# Prints a drawing in DOT of a mesh: KIND is plan, collection or faults, CUT a link or empty, and the lines of the programs are in files. In the
# environment `slide` asks for a slide, and `near` for a route and what is next to it.
drawing() {
    local kind=$1 file=$2 cut=$3
    shift 3
    { site_comments "$file" && cat "$@"; } | name=$(basename -- "${file%.*}") cut=$cut by_awk sites words draw "draw.$kind"
}

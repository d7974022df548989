# shellcheck shell=bash
# Sourced by scripts/film after common.sh: the frames of a film, from the answers of the program calls, and the page that shows them. They use `book`, the
# mesh's book; `made`, a folder for temporary files; `cut`; `both`, 1 for both wavelengths; and `order`, deliveries as LINK or LINK:WAVELENGTH, empty for
# those of a run.

# A number in two bytes, low byte first, for the input of calls (docs/CORPUS.md).
write_number() {
    local bytes
    printf -v bytes '\\x%02x\\x%02x' $(($1 % 256)) $(($1 / 256))
    printf '%b' "$bytes"
}

add_call() {
    "$@" >>"$made/calls"
    count=$((count + 1))
    write_number "$count" >"$made/count"
}
cut_call() {
    printf C
    write_number "$1"
}
deliver_call() {
    printf '%b' "D\\x0$2"
    write_number "$1"
}

# The program's answers to the calls so far, and the session after them.
answers() {
    cat "$made/head" "$made/count" "$made/calls" | run_program calls
}

# A frame is the last answer and the five lines of the session. After two seconds it says how many calls there are, and on a terminal every other second.
add_frame() {
    answers | tail -n 6 >"$made/frame"
    cat "$made/frame" >>"$made/frames"
    [ "$SECONDS" -ge "$next_progress" ] || return 0
    echo "film: $count calls so far .." >&2
    next_progress=$((SECONDS + 2))
    [ -t 2 ] || next_progress=$((SECONDS + 3600))
}

# What a run delivers next, from the states in the last frame: the lowest link under way, and where it is under way on both wavelengths first 1. It
# fails where none is.
find_next() {
    local word wavelength states before
    next=''
    while read -r word wavelength states; do
        [ "$word" = states ] && [ "$wavelength" -le $((both + 1)) ] || continue
        before=${states%%[13]*}
        [ "$before" != "$states" ] || continue
        [ -n "$next" ] && [ "${#before}" -ge "${next%:*}" ] || next=${#before}:$wavelength
    done <"$made/frame"
    [ -n "$next" ]
}

add_delivery() {
    local link=${1%:*} wavelength=1
    [ "$link" = "$1" ] || wavelength=${1#*:}
    add_call deliver_call "$link" "$wavelength"
    add_frame
}

# What the program answers once a run has brought both wavelengths to rest: the lengths and the links of the routes.
add_routes() {
    "$root/scripts/reference" script run 4294967295 status "$cut" 1 status "$cut" 2 route 1 route 2 <"$book" |
        tail -c +$(($(wc -c <"$made/head") + 3)) >>"$made/calls"
    write_number $((count + 5)) >"$made/count"
    answers | grep -E '^(status|route) ' >>"$made/frames"
}

# Makes the frames: the start, the cut, and each delivery; and the lines of the routes.
make_frames() {
    local delivery
    count=0 next_progress=$((SECONDS + ${PROGRESS_AFTER-2}))
    { write_number "$(wc -c <"$book")" && cat "$book"; } >"$made/head"
    write_number 0 >"$made/count"
    : >"$made/calls"
    : >"$made/frames"
    add_frame
    add_call cut_call "$cut"
    add_frame
    for delivery in "${order[@]}"; do add_delivery "$delivery"; done
    [ "${#order[@]}" -gt 0 ] || while find_next; do add_delivery "$next"; done
    add_routes
}

# Places by Graphviz where it is installed, from a listing: a line `place NODE RIGHT UP` for each node. They hold for a mesh whose table has not all.
places() {
    local listing=$1
    command -v dot >/dev/null || return 0
    {
        echo 'graph { layout=neato; overlap=false; start=1; node [shape=circle width=1 fixedsize=true]; edge [len=1.6]'
        awk '$1 == "link" { print $3 " -- " $4 }' "$listing"
        echo '}'
    } | dot -Tplain | awk '$1 == "node" { print "place", $2, $3, $4 }'
}

# The page of a film: NAME of the mesh, its table or book with the site comments, its listing; the frames are made.
page() {
    local name=$1 file=$2 listing=$3
    site_comments "$file" | cat - "$listing" "$made/places" "$made/frames" |
        name=$name template=$root/scripts/film.html LC_ALL=C awk -v cut="$cut" -v both="$both" \
            -f "$root/scripts/sites.awk" -f "$root/scripts/words.awk" -f "$root/scripts/film.mesh.awk" -f "$root/scripts/film.words.awk" -f "$root/scripts/film.awk"
}

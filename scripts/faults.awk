# Says of each part of a mesh and each bridging link where it stands, as FILE:LINE: message, from the lines of survey, after sites.awk and words.awk.
# Before them stand the site comments and the lines with data of the mesh's table, these each after its line number; of a book there are none. `shown` in
# the environment is the mesh's name.
BEGIN { shown = ENVIRON["shown"]; data = parts = 0 }
take_site($0) { next }
$1 ~ /^[0-9]+$/ { if (data++) take_link(); else nodes_line = $1 }
$1 == "survey" { all_parts = $2 }
$1 == "part" && all_parts > 1 { print at(first_line()) "part " ++parts " of " all_parts ": " node_list() (parts > 1 ? "; no path to node 0" : "") }
$1 == "bridge" {
    print at(line_of[$2]) "link " $2 ", between nodes " named($3) " and " named($4) ", parts " (all_parts > 1 ? "its part of the mesh" : "the mesh")
}
# Of the lines with data the first has the number of nodes, each further one a link.
function take_link() {
    line_of[data - 2] = $1
    if (!($2 in line_at)) line_at[$2] = $1
    if (!($3 in line_at)) line_at[$3] = $1
}
function at(line) {
    return shown (line ? ":" line : "") (shown ? ": " : "")
}
# the first line with a link of the part; where it has none, the line with the number of nodes
function first_line(    i, first) {
    for (i = 2; i <= NF; i++) if ($i in line_at && (!first || line_at[$i] < first)) first = line_at[$i]
    return first ? first : nodes_line
}
function node_list(    i, text) {
    text = (NF == 2 ? "node " : "nodes ") named($2)
    for (i = 3; i <= NF; i++) text = text ", " named($i)
    return text
}

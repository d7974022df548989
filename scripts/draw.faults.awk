# Turns site comments, a table's other lines and the lines of survey into a drawing of a mesh that planning refuses, after draw.awk: each part but that of
# node 0 filled with one of five colours and with red outlines, and the bridging links red and bold.
BEGIN {
    split("#ffe8bf #d8ecd3 #e6daf0 #d9ecf7 #f0e0d6", fill, " ")
    spread = 1
}
$1 == "nodes" { nodes = $2 }
$1 ~ /^[0-9]+$/ { add_link($1, $2) }
$1 == "part" {
    parts++
    for (i = 2; i <= NF; i++) part_of[$i] = parts
}
$1 == "bridge" { bridge[++bridges] = $2; is_bridging[$2] = 1 }
END {
    add_title(faults_in_words() (bridges ? " (red)" : ""))
    begin_drawing("")
    for (node = 0; node < nodes; node++) draw_node(node, "", parts > 1 ? "part " part_of[node] : "", part_style(part_of[node]))
    draw_links()
    print "}"
}
function part_style(number) {
    return number == 1 ? "" : " fillcolor=\"" fill[(number - 2) % 5 + 1] "\" color=red" thick(2)
}
# A mesh without a plan has no directions.
function leads_up(link) {
    return 1
}
function link_style(link) {
    return " dir=none" (link in is_bridging ? " color=red fontcolor=red" thick(4) : "")
}

# Turns site comments, a table's other lines and the lines of bus into a drawing, after draw.awk.
$1 == "nodes" { nodes = $2 }
$1 ~ /^[0-9]+$/ { add_link($1, $2) }
$1 == "collect" { root = $2; entries = $4 }
# which node is met first, which second and so on; at most 40 entries of the route in a line of the title, and on a slide as many as it has room for
$1 == "route" {
    for (i = 2; i <= NF; i++) {
        if (!($i in met)) met[$i] = ++count
        route = route (i == 2 ? "" : i % 40 == 2 && !slide ? "\n" : " ") $i
    }
}
$1 == "link" { in_tree[$2] = 1 }
END {
    add_title("collection route from node " root ", " counted(entries, "entry", "entries") \
        ": its tree (blue, outward direction), and the order in which it meets the nodes")
    lines = split(route, line, "\n")
    for (i = 1; i <= lines; i++) add_title(line[i])
    begin_drawing(" (dashed: not in the tree)")
    for (node = 0; node < nodes; node++) draw_node(node, node == root ? "root" : "", ordinal(met[node]), "")
    draw_links()
    print "}"
}
function ordinal(n,    last) {
    last = n % 100 > 10 && n % 100 < 14 ? 0 : n % 10
    return n (last == 1 ? "st" : last == 2 ? "nd" : last == 3 ? "rd" : "th")
}
# a link of the tree in the direction in which the walk crosses it first
function leads_up(link) {
    return !(link in in_tree && met[high[link]] < met[low[link]])
}
function link_style(link) {
    return link in in_tree ? " color=\"#0b5ed7\" fontcolor=\"#0b5ed7\"" thick(3) : " style=dashed dir=none"
}

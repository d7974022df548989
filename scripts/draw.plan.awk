# Turns site comments and a listing of meshplan into a drawing, after draw.awk. `cut` in the environment is a link or empty; with `near` only its route
# and what is next to it are drawn.
BEGIN { x = y = -1; cut = ENVIRON["cut"]; near = spread = ENVIRON["near"] != "" }
$1 == "mesh" { nodes = $2 }
$1 == "link" { add_link($3, $4); direction[$2] = $5 }
$1 == "cut" && $2 == cut && cut != "" {
    x = $3; y = $4
    for (i = 7; i <= NF; i++) on_route[$i] = 1
    rest = "link " cut " cut (red), at rest after " counted($5, "delivery", "deliveries")
    route = "route of " counted(NF - 6, "link", "links") ", "
    colours = " (blue, back-up direction)"
    if (slide || near) {
        add_title(rest)
        add_title(route in_metres($6) colours)
    } else add_title(rest " with a " route ($6 == "-" ? in_metres($6) : $6 " metres") colours)
}
END {
    if (near) leave_out()
    begin_drawing(" (grey, primary direction)")
    for (node = 0; node < nodes; node++)
        if (!near || node in met) draw_node(node, node == x ? "x" : node == y ? "y" : "", lost[node] ? "+" lost[node] : "", lost[node] ? dashed : "")
    draw_links()
    print "}"
}
# Leaves out all links without an end on the route, and all nodes at which none of the others ends.
function leave_out(    link, node, nodes_out, links_out) {
    dashed = " style=\"filled,dashed\" color=gray50"
    for (link in on_route) on_way[low[link]] = on_way[high[link]] = 1
    for (link = 0; link < links; link++) {
        if (low[link] in on_way || high[link] in on_way) met[low[link]] = met[high[link]] = 1
        else { left_out[link] = 1; links_out++; lost[low[link]]++; lost[high[link]]++ }
    }
    for (node = 0; node < nodes; node++) nodes_out += !(node in met)
    add_title(links_out ? "left out: " counted(nodes_out + 0, "node", "nodes") " and " counted(links_out, "link", "links") \
        " that are not next to the route; +2 at a dashed node: 2 of its links" : "nothing is left out")
}
# the back-up arc of a link of the route, otherwise the primary one
function leads_up(link) {
    return direction[link] == (link in on_route)
}
function link_style(link) {
    if (link in on_route) return " color=\"#0b5ed7\" fontcolor=\"#0b5ed7\"" thick(3)
    if (link == cut) return " color=red fontcolor=red style=dashed" thick(2)
    return ""
}

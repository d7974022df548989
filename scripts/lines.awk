# Takes in a table's site comments, after sites.awk, and the lines of programs: a listing of meshplan, the lines of survey, and of show the lines of
# links, which have a length, a fibre pair and a duct.
BEGIN { nodes = links = parts = bridges = 0 }
take_site($0) { next }
$1 == "mesh" { nodes = $2 }
$1 == "link" { low[$2] = $3; high[$2] = $4; links = $2 + 1 }
$1 == "link" && NF == 5 { direction[$2] = $5; beside[$3, $4]++ }
$1 == "link" && NF == 7 { link_metres[$2] = $5; pair[$2] = $6; duct[$2] = $7 }
$1 == "cut" { x[$2] = $3; y[$2] = $4; deliveries[$2] = $5; metres[$2] = $6; route[$2] = words_from(7) }
$1 == "refused" { refused = 1; refusal = $2; place = $3 }
$1 == "survey" { nodes = 0 }
$1 == "part" { part[++parts] = words_from(2); nodes += NF - 1 }
$1 == "bridge" { bridge[++bridges] = $2 }

function words_from(first,    text) {
    for (text = $first; first < NF; ) text = text " " $++first
    return text
}
# the other end of a link
function across(link, node) {
    return low[link] == node ? high[link] : low[link]
}
# the nodes of a cut's route, from x on
function route_nodes(cut,    taken, count, i, node, text) {
    count = split(route[cut], taken, " ")
    text = node = x[cut]
    for (i = 1; i <= count; i++) text = text " " (node = across(taken[i], node))
    return text
}

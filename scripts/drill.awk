# Turns a listing of meshplan into the lines of scripts/drill.

# The back-up arc of a link is its primary arc turned round: high to low for direction 0, low to high for 1.
function add_arc(link, low, high, direction,    tail) {
    tail = direction == 0 ? high : low
    head[link] = direction == 0 ? low : high
    leaving[tail, ++degree[tail]] = link
}

# The links of a shortest path from x to y over back-up arcs without the cut link. Breadth first: nodes join the queue by rising distance from x,
# so the distance at which y is first met is the least.
function shortest(x, y, cut,    distance, queue, first, last, node, link, i) {
    distance[x] = 0
    queue[last = 1] = x
    for (first = 1; first <= last && !(y in distance); first++) {
        node = queue[first]
        for (i = 1; i <= degree[node]; i++) {
            link = leaving[node, i]
            if (link == cut || head[link] in distance) continue
            distance[head[link]] = distance[node] + 1
            queue[++last] = head[link]
        }
    }
    return distance[y]
}

# In every order the deliveries are twice the links ever offered, which are the same in all, less the links of that order's route. So the run tells
# how many are offered; and since every path that meets no node twice is the route of some order, one whose route is a shortest path takes the most.
function add_cut(cut, x, y, run, route,    offered, most) {
    offered = (run + route) / 2
    most = 2 * offered - shortest(x, y, cut)
    line[++cuts] = "cut " cut " " x " " y " deliveries " run " offered " offered " route " route " most " most
    deliveries[cuts] = run
    if (run > heaviest) heaviest = run
    if (most > highest) { highest = most; with_highest = "" }
    if (most == highest) with_highest = with_highest " " cut
}

$1 == "mesh" { links = $3 }
$1 == "link" { doubled += joined[$3, $4]++; add_arc($2, $3, $4, $5) }
$1 == "cut" { add_cut($2, $3, $4, $5, NF - 6) }
END {
    # a route has one link where another link joins the ends of the cut one; where no two links have the same ends every route has two or more
    bound = 2 * links - (doubled ? 3 : 4)
    for (i = 1; i <= cuts; i++) print line[i] (deliveries[i] == heaviest ? " heaviest" : "")
    print "most " highest " cuts" with_highest
    print "bound " bound (highest == bound ? " reached" : " not reached")
}

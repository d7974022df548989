# Names the lines of a table that a refusal is about, from the table's lines with data, each after its line number. `number` and `place` are the
# refusal's, `call` is the call that met it or empty, and NAME in the environment is the table's name.
BEGIN { name = ENVIRON["NAME"] }
{ line[NR - 2] = $1; low[NR - 2] = $2; high[NR - 2] = $3 }
END {
    if (!NR) exit
    links = NR - 1
    if (number == 6) say(-1, "the nodes are 0 to " high[-1] - 1)
    else if (number == 12) say(links - 1, links ? "link " links - 1 " is the last" : "no line has a link")
    else if (number == 20) say_node()
    else if (number == 21) say(place, "link " place ", " ends(place) ", parts the mesh")
    else if (number >= 22 && call != "run" && call != "route") say(place, "link " place ", " ends(place) ", is the link that was named")
}
function say(link, what) {
    print name ":" line[link] ": " what
}
function ends(link) {
    return "between nodes " low[link] " and " high[link]
}
function say_node(    link, found) {
    for (link = 0; link < links; link++) if (low[link] == place || high[link] == place) {
        found = 1
        say(link, "node " place " has no path to node 0, and here has link " link " to node " (low[link] == place ? high[link] : low[link]))
    }
    if (!found) say(-1, "node " place " has no path to node 0, and no line has a link of it")
}

# Turns a listing of meshplan, and of a refused mesh the lines of survey, into a verdict and the routes by node and site, after words.awk and lines.awk.
END {
    if (!nodes && !refused) exit 1
    print refused ? refused_verdict() : verdict()
    for (cut = 0; !refused && cut < links; cut++)
        print "cut " cut " (" names_of(low[cut], high[cut]) "): " route_text(cut) ", " counted(length_of(cut), "link", "links") ", " \
            in_metres(metres[cut]) ", " counted(deliveries[cut], "delivery", "deliveries")
}
function length_of(cut,    taken) {
    return split(route[cut], taken, " ")
}
# the nodes of a route; where several links join two of them, the link that is taken stands between them in brackets
function route_text(cut,    taken, at, count, i, text) {
    count = split(route[cut], taken, " ")
    split(route_nodes(cut), at, " ")
    text = named(at[1])
    for (i = 1; i <= count; i++)
        text = text (beside[low[taken[i]], high[taken[i]]] > 1 ? " -[" taken[i] "]- " : " - ") named(at[i + 1])
    return text
}
function verdict(    cut, longest, most) {
    for (cut = 0; cut < links; cut++) {
        if (length_of(cut) > longest) longest = length_of(cut)
        if (deliveries[cut] > most) most = deliveries[cut]
    }
    return "every link is protected: " nodes " nodes, " links " links; the longest route has " counted(longest, "link", "links") \
        ", the heaviest run " counted(most, "delivery", "deliveries")
}
function refused_verdict() {
    if (refusal != 20 && refusal != 21) return "not a mesh: refused " refusal " " place
    return faults_in_words()
}

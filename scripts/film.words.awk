# What the frames of a film say, in words and for those who do not see the pictures, after words.awk; film.awk has the sessions.

# `1, 2 and 3`
function numbers(list,    items, count, i, text) {
    count = split(list, items, " ")
    for (i = 1; i <= count; i++) text = text (i == 1 ? "" : i == count ? " and " : ", ") items[i]
    return text
}
# `links 1, 2 and 3`; of more than twenty their number alone
function listed(list, noun,    items, count) {
    count = split(list, items, " ")
    if (count == 0) return "no " noun
    if (count > 20) return count " " noun "s"
    return noun (count == 1 ? " " : "s ") numbers(list)
}
function node_named(node) {
    return "node " node (site_name[node] != "" ? " (" escaped(site_name[node]) ")" : "")
}
function capital(text) {
    return toupper(substr(text, 1, 1)) substr(text, 2)
}
function on_wavelength(wavelength) {
    return both ? " on wavelength " wavelength : ""
}

function heading(frame,    word) {
    split(answer[frame], word, " ")
    if (word[1] == "start") return "Before the cut"
    if (word[1] == "cut") return "The cut of link " cut
    if (word[4] == "refused") return "A delivery on link " word[2] on_wavelength(word[3]) " is refused"
    return "Delivery " deliveries ": link " word[2] on_wavelength(word[3])
}
function words(frame,    word) {
    split(answer[frame], word, " ")
    if (word[1] == "start") return "Primary streams run along the arrows" (both ? ", on wavelength 2 against those of wavelength 1" : "") \
        ". No link is used for recovery, and no node is reached."
    if (word[1] == "cut") return cut_words(frame, 1) (both ? " " cut_words(frame, 2) : "")
    if (word[4] == "taken") return taken_words(frame, word[2], word[3], word[5])
    if (word[4] == "turned") return turned_words(frame, word[2], word[3], word[5])
    if (word[4] == "released") return released_words(frame, word[2], word[3], word[5])
    return refused_words(frame, word[2], word[3], word[5])
}
function cut_words(frame, wavelength) {
    return capital((both ? "on wavelength " wavelength " " : "") node_named(x_of[wavelength])) " has lost its outgoing stream and is <b>x</b>; " \
        node_named(y_of[wavelength]) " should have received it and is <b>y</b>. Node " x_of[wavelength] " offers " \
        listed(changed(frame, wavelength, 0, 1), "link") "."
}
function arrives(what, link, wavelength, node) {
    return "The " what " on link " link on_wavelength(wavelength) " arrives at " node_named(node)
}
function taken_words(frame, link, wavelength, node,    offers) {
    offers = changed(frame, wavelength, 0, 1)
    return arrives("offer", link, wavelength, node) \
        (node == y_of[wavelength] ? ", which is <b>y</b>. It" : ", which is new. It") \
        (offers == "" ? " offers nothing" : " offers " listed(offers, "link")) " and takes link " link "."
}
function turned_words(frame, link, wavelength, node) {
    return arrives("offer", link, wavelength, node) \
        (is_reached(frame - 1, wavelength, node) ? ", which was reached before." : ", which is new and has no quiet link to offer.") \
        " It turns the offer back: link " link " is refused."
}
function released_words(frame, link, wavelength, node,    given_up) {
    given_up = changed(frame, wavelength, 2, 3)
    return arrives("refusal", link, wavelength, node) ", which releases the link. " (node == x_of[wavelength] ? "It is <b>x</b> and does nothing more." : \
        given_up != "" ? "It has no outgoing link left and gives up " listed(given_up, "link") ", which was taken and is refused." : \
        "It still has an outgoing link that is offered, taken or refused, and does nothing more.")
}
function refused_words(frame, link, wavelength, number) {
    return "Link " link " is " state_names[state_of(frame, wavelength, link) + 1] (link == cut ? " and cut" : "") on_wavelength(wavelength) \
        ": nothing is on its way there that could arrive. The library refuses the delivery with " number \
        ", the link is not under way, and changes nothing."
}

# How many links are under way; where none is any more, the route; in the last frame that the film ends before rest.
function counts(frame, wavelength,    list, items, count) {
    list = under_way(frame, wavelength)
    count = split(list, items, " ")
    if (count == 0) return rest_words(frame, wavelength)
    return (both ? "Wavelength " wavelength ": under way: " : "Under way: ") counted(count, "link", "links") (count > 20 ? "" : ", " numbers(list)) "." \
        (frame == frames ? " The film ends here, before rest." : "")
}
# Where nothing is under way any more, the new route, by its links, nodes and length. The library's status gives the length at rest, which is when nothing is
# under way on the other wavelength either.
function rest_words(frame, wavelength,    link, count, i, node, text) {
    count = split(route[wavelength], link, " ")
    node = x_of[wavelength]
    text = node_named(node)
    for (i = 1; i <= count; i++) {
        node = low[link[i]] + high[link[i]] - node
        text = text " - " node_named(node)
    }
    return (both ? "Wavelength " wavelength ": nothing" : "Nothing") " is under way any more, after " counted(made_on[wavelength] + 0, "delivery", "deliveries") \
        ". The new route has " counted(count, "link", "links") ", " numbers(route[wavelength]) ": " text ", " \
        in_metres(metres[wavelength]) \
        (under_way(frame, 3 - wavelength) == "" ? "; the mesh is at rest." : ". The mesh is at rest once nothing is under way on wavelength " 3 - wavelength " either.")
}

# A picture in words: the links in each state, and the reached nodes.
function in_words(frame, wavelength,    state, link, lists, list, node, text) {
    for (link = 0; link < links; link++)
        if (link != cut || frame == 0) lists[state_of(frame, wavelength, link)] = lists[state_of(frame, wavelength, link)] " " link
    for (state = 0; state < 5; state++) if (lists[state] != "") text = text state_names[state + 1] ": " listed(lists[state], "link") "; "
    for (node = 0; node < nodes; node++) if (is_reached(frame, wavelength, node)) list = list " " node
    return text (frame == 0 ? "" : "cut: link " cut "; ") "reached: " listed(list, "node")
}

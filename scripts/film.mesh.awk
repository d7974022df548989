# The mesh of a film as SVG: where its nodes, links and labels stand, and the definitions that every frame uses by name: n3 is node 3, l3 link 3, `labels`
# the links' numbers. An inch of a place has 100 units, and y grows downwards. Every awk gives the same bytes.
BEGIN {
    least_radius = 24
    # between a link's line and its nodes, for the tips of arrow heads
    gap = 7
    # between the lines of two links with the same ends, of up to 36
    apart = 34
}

# To the nearest whole number. What lies halfway goes up, also where an error in the last digit puts it a little below.
function round(value) {
    return int(value + 1000000.500001) - 1000000
}
# The square root, the sine (power 1, term the angle) and the cosine (power 0, term 1), of which some awk has none.
function root(value,    guess, turn) {
    guess = value > 1 ? value : 1
    for (turn = 0; turn < 40; turn++) guess = (guess + value / guess) / 2
    return guess
}
function series(angle, power, term,    sum) {
    for (; power < 60; power += 2) {
        sum += term
        term *= -angle * angle / ((power + 1) * (power + 2))
    }
    return sum
}
function distance(x1, y1, x2, y2) {
    return root((x1 - x2) * (x1 - x2) + (y1 - y2) * (y1 - y2))
}
function is_near(x1, y1, x2, y2, limit) {
    return (x1 - x2) * (x1 - x2) + (y1 - y2) * (y1 - y2) < limit * limit
}

# The places of all nodes: of the table where it has all of them, else of Graphviz's layout, else a circle with node 0 on top.
function place_nodes(    node, whole, turn) {
    whole = 1
    for (node = 0; node < nodes; node++) if (!(node in site_right)) whole = 0
    for (node = 0; node < nodes; node++) {
        turn = node / nodes * 6.283185307
        if (whole) place_node(node, site_right[node], site_up[node])
        else if (node in laid_right) place_node(node, laid_right[node], laid_up[node])
        else place_node(node, circle() * series(turn, 1, turn), circle() * series(turn, 0, 1))
    }
    move_apart()
}
# Where two nodes stand too close for a link's number, its arrow head and the cross between them, all places are moved apart by the same factor.
function move_apart(    a, b, long, needed, factor) {
    factor = 1
    for (a = 0; a < nodes; a++) for (b = a + 1; b < nodes; b++) {
        long = distance(across[a], down[a], across[b], down[b])
        needed = radius[a] + radius[b] + ((a, b) in beside ? 100 : 20)
        if (long > 0 && needed > factor * long) factor = needed / long
    }
    for (a = 0; a < nodes; a++) { across[a] = round(across[a] * factor); down[a] = round(down[a] * factor) }
}
function circle() {
    return nodes < 8 ? 1.8 : nodes * 0.24
}
# Nodes stand further apart where more than three links have the same ends.
function place_node(node, its_right, its_up,    i, wider) {
    wider = 100 * (most_beside > 36 ? 12 : most_beside > 3 ? most_beside / 3 : 1)
    across[node] = round(its_right * wider)
    down[node] = round(-its_up * wider)
    radius[node] = least_radius
    name_lines[node] = wrapped(node)
    for (i = 1; i <= name_lines[node]; i++) widen(node, 3 * letters(name_line[node, i]) + 9)
    widen(node, 14 + 6 * name_lines[node])
}
function widen(node, needed) {
    if (needed > 48) needed = 48
    if (needed > radius[node]) radius[node] = needed
}
# Parts a node's name into up to four lines at its blanks, with up to twelve letters in a line where a word is not longer. Gives their number.
function wrapped(node,    words, count, i, lines) {
    count = split(site_name[node], words, " ")
    for (i = 1; i <= count; i++) {
        if (i > 1 && letters(name_line[node, lines] " " words[i]) <= 12)
            name_line[node, lines] = name_line[node, lines] " " words[i]
        else if (lines == 4) {
            name_line[node, lines] = name_line[node, lines] " .."
            break
        }
        else name_line[node, ++lines] = words[i]
    }
    return lines + 0
}
# how many letters a text in UTF-8 has: its bytes but for those that go on with a letter
function letters(text) {
    return gsub(/[^\200-\277]/, "", text)
}

# The curve of a link from its low to its high end, which passes the middle between its nodes at the given distance: its start, the point that it bends
# towards, and its end.
function bend(link, aside,    a, b, long, reach) {
    a = low[link]; b = high[link]
    long = distance(across[a], down[a], across[b], down[b])
    if (long == 0) long = 1
    mid_x[link] = (across[a] + across[b]) / 2 - (down[b] - down[a]) / long * 2 * aside
    mid_y[link] = (down[a] + down[b]) / 2 + (across[b] - across[a]) / long * 2 * aside
    reach = distance(across[a], down[a], mid_x[link], mid_y[link])
    if (reach == 0) reach = 1
    start_x[link] = across[a] + (mid_x[link] - across[a]) * (radius[a] + gap) / reach
    start_y[link] = down[a] + (mid_y[link] - down[a]) * (radius[a] + gap) / reach
    end_x[link] = across[b] + (mid_x[link] - across[b]) * (radius[b] + gap) / reach
    end_y[link] = down[b] + (mid_y[link] - down[b]) * (radius[b] + gap) / reach
}
# A point of a link's curve, at a part of the way from its start to its end: px and py.
function find_point(link, part) {
    px = (1 - part) * (1 - part) * start_x[link] + 2 * part * (1 - part) * mid_x[link] + part * part * end_x[link]
    py = (1 - part) * (1 - part) * start_y[link] + 2 * part * (1 - part) * mid_y[link] + part * part * end_y[link]
}
# whether the link's curve keeps clear of all nodes but its own, by points of it that are at most some 30 units apart
function is_clear(link,    node, steps, step) {
    steps = 8 + int(distance(start_x[link], start_y[link], end_x[link], end_y[link]) / 30)
    for (step = 0; step <= steps; step++) {
        find_point(link, step / steps)
        for (node = 0; node < nodes; node++)
            if (node != low[link] && node != high[link] && is_near(px, py, across[node], down[node], radius[node] + 8)) return 0
    }
    return 1
}
# Links with the same ends stand beside each other. Any other link is straight, or bent as little as keeps it clear of the nodes between its ends.
function place_links(    link, last, tried) {
    for (link = 0; link < links; link++) {
        last = beside[low[link], high[link]] - 1
        if (last > 0) {
            bend(link, (nth[link] - last / 2) * (last > 35 ? apart * 35 / last : apart))
            continue
        }
        for (tried = 0; tried < 7; tried++) {
            bend(link, int((tried + 1) / 2) * (tried % 2 ? 45 : -45))
            if (is_clear(link)) break
        }
        if (tried == 7) bend(link, 0)
    }
}

# The number of each link stands on its line, in the middle or, where another number or a node is there, aside from it; never at an arrow head.
function place_labels(    link, parts, tried) {
    split("50 40 60 33 67", parts, " ")
    for (link = 0; link < links; link++) {
        for (tried = 1; tried <= 5; tried++) {
            find_point(link, parts[tried] / 100)
            if (has_room(link)) break
        }
        if (tried > 5) find_point(link, parts[tried = 1] / 100)
        label_part[link] = parts[tried]
        label_x[link] = round(px)
        label_y[link] = round(py)
    }
}
function has_room(link,    other) {
    for (other = 0; other < link; other++) if (is_near(px, py, label_x[other], label_y[other], 25)) return 0
    for (other = 0; other < nodes; other++) if (is_near(px, py, across[other], down[other], radius[other] + 28)) return 0
    return 1
}

# The part of the plane that a frame shows.
function find_view(    node, link) {
    left = top = 1000000; rightmost = lowest = -1000000
    for (node = 0; node < nodes; node++) show_point(across[node], down[node], radius[node] + 6)
    for (link = 0; link < links; link++) {
        find_point(link, 0.5)
        show_point(px, py, 20)
    }
    view = left " " top " " (rightmost - left) " " (lowest - top)
}
function show_point(x, y, margin) {
    if (x - margin < left) left = round(x - margin)
    if (y - margin < top) top = round(y - margin)
    if (x + margin > rightmost) rightmost = round(x + margin)
    if (y + margin > lowest) lowest = round(y + margin)
}

# The definitions: nodes without a mark, and with the marks that the ends of the cut link have; links; the cross on the cut link; the links' numbers.
function print_definitions(    node, link) {
    for (node = 0; node < nodes; node++) print_node(node, "")
    print_node(x_of[1], "x"); print_node(x_of[1], "y")
    print_node(x_of[2], "x"); print_node(x_of[2], "y")
    for (link = 0; link < links; link++)
        print "<path id=\"l" link "\" d=\"M" round(start_x[link]) "," round(start_y[link]) " Q" round(mid_x[link]) "," round(mid_y[link]) \
            " " round(end_x[link]) "," round(end_y[link]) "\"/>"
    find_point(cut, label_part[cut] < 50 ? 0.75 : 0.25)
    print "<path id=\"cross\" class=\"cross\" transform=\"translate(" round(px) "," round(py) ")\" d=\"M-9,-9 L9,9 M-9,9 L9,-9\"/>"
    print "<g id=\"labels\">"
    for (link = 0; link < links; link++) print_label(link)
    print "</g>"
}
function print_label(link,    wide) {
    wide = 8 + 8 * length(link "")
    print "<rect x=\"" label_x[link] - wide / 2 "\" y=\"" label_y[link] - 9 "\" width=\"" wide "\" height=\"18\" rx=\"4\"/>" \
        "<text x=\"" label_x[link] "\" y=\"" label_y[link] + 4 "\">" link "</text>"
}
function print_node(node, mark,    i, at, line) {
    at = down[node] + 5 - 6 * name_lines[node]
    line = "<g id=\"n" node mark "\"><circle cx=\"" across[node] "\" cy=\"" down[node] "\" r=\"" radius[node] "\"/>"
    if (mark != "") line = line "<circle class=\"ring\" cx=\"" across[node] "\" cy=\"" down[node] "\" r=\"" radius[node] - 4 "\"/>"
    line = line "<text class=\"number\" x=\"" across[node] "\" y=\"" at "\">" node (mark == "" ? "" : " " mark) "</text>"
    for (i = 1; i <= name_lines[node]; i++) line = line name_text(node, i, at + 1 + 11 * i)
    print line "</g>"
}
# A line of a name that is too long for its node is drawn narrower.
function name_text(node, i, at,    wide) {
    wide = 2 * radius[node] - 10
    return "<text class=\"name\" x=\"" across[node] "\" y=\"" at "\"" \
        (6 * letters(name_line[node, i]) > wide ? " textLength=\"" wide "\" lengthAdjust=\"spacingAndGlyphs\"" : "") \
        ">" escaped(name_line[node, i]) "</text>"
}

# What every drawing in DOT has, after sites.awk and words.awk: the nodes' places, the title, the style, the links. In the environment `name` is the mesh's
# name, and with `slide` the drawing fills a slide. The drawing at hand counts its nodes in `nodes`, gives each link by `add_link`, and says of a link
# whether its arrow leads from low to high (`leads_up`) and how it is drawn (`link_style`). Links in `left_out` are not drawn.
BEGIN {
    links = 0
    slide = ENVIRON["slide"] != ""
}
take_site($0) { next }
function add_link(its_low, its_high) {
    low[links] = its_low; high[links++] = its_high
    if (++beside[its_low, its_high] > most_beside) most_beside = beside[its_low, its_high]
}
# a line of the title after its first, which begins with the mesh's name and size
function add_title(line) {
    title = title "\n" wrapped(line, title_width())
}
function title_width() {
    return slide ? 76 : 150
}
# Links with the same ends are set apart by `nodesep`, as curves beside each other. This holds where lines are not led round nodes; so with such links all
# lines go straight, and above the nodes that they pass. On a slide, and where the drawing at hand sets `spread`, `sep` keeps nodes apart by more than a
# link's number and two arrow heads take.
function begin_drawing(words) {
    title = wrapped(ENVIRON["name"] ": " counted(nodes, "node", "nodes") ", " counted(links, "link", "links") words, title_width()) title
    print "digraph " quoted(ENVIRON["name"]) " {"
    print "  layout=neato; overlap=scale; " (slide ? "sep=\"+34\"; esep=\"+12\"; " : spread ? "sep=\"+26\"; esep=\"+8\"; " : "") \
        (most_beside > 1 ? "splines=line; nodesep=" (slide ? 0.6 : 0.4) "; outputorder=nodesfirst" : "splines=true; outputorder=edgesfirst") \
        "; start=1; fontname=Helvetica; fontsize=" (slide ? 22 : 13) "; labelloc=t"
    if (slide) print "  size=\"13.33,7.5!\"; viewport=\"960,540\"; pad=0.2" (all_placed() ? "" : "; ratio=fill")
    print "  label=" quoted(title)
    print "  node [shape=circle width=" (slide ? 0.8 : 0.55) " margin=0.02 fontname=Helvetica fontsize=" (slide ? 17 : 11) \
        (slide ? " penwidth=1.5" : "") " style=filled fillcolor=white]"
    print "  edge [fontname=Helvetica fontsize=" (slide ? 16 : 10) (slide ? " penwidth=1.5" : "") \
        " color=gray50 fontcolor=gray30 arrowsize=" (slide ? 1 : 0.8) " len=" (slide ? 1.2 : 1.5) * wider() "]"
}
# how thick a line is that stands out
function thick(points) {
    return " penwidth=" (slide ? points * 1.6 : points)
}
# by how much nodes stand further apart where more than three links have the same ends, so that these links' numbers are readable
function wider() {
    return most_beside > 3 ? most_beside / 3 : 1
}
function all_placed(    node) {
    for (node = 0; node < nodes; node++) if (!(node in site_right)) return 0
    return 1
}
# by how much all places are multiplied, so that on a slide they fill 11 by 5 inches
function place_scale(    node, left, right, down, up, scale) {
    if (!slide || !all_placed()) return wider()
    left = right = site_right[0]; down = up = site_up[0]
    for (node = 1; node < nodes; node++) {
        left = least(left, site_right[node]); right = -least(-right, -site_right[node])
        down = least(down, site_up[node]); up = -least(-up, -site_up[node])
    }
    scale = least(right > left ? 11 / (right - left) : 100, up > down ? 5 / (up - down) : 100)
    return scale < 100 ? scale : 1
}
function least(a, b) {
    return a + 0 < b + 0 ? a + 0 : b + 0
}
# A node with a mark beside its number stands out; a note is its last line, and `more` are further attributes.
function draw_node(node, mark, note, more) {
    if (!scale) scale = place_scale()
    print "  " node " [label=" quoted(node (mark ? " " mark : "") (node in site_name ? "\n" wrapped(site_name[node], 10) : "") (note ? "\n" note : "")) \
        (mark ? " fillcolor=\"#cfe2ff\"" thick(2) : "") more \
        (node in site_right ? " pos=\"" site_right[node] * scale "," site_up[node] * scale "!\"" : "") "]"
}
# on white, to be readable where it meets an arc
function link_label(link) {
    return "label=<<table border=\"0\" cellpadding=\"0\" bgcolor=\"white\"><tr><td>" link "</td></tr></table>>"
}
# Links with the same ends are neighbours. Graphviz puts the first of them on one side, and after it the others from the last one back; so they are
# written in this order, and all from the low end, to stand by rising number.
function draw_links(    first, last, link) {
    for (first = 0; first < links; first = last + 1) {
        last = first + beside[low[first], high[first]] - 1
        if (first in left_out) continue
        draw_link(first)
        for (link = last; link > first; link--) draw_link(link)
    }
}
# The number of a link that has others beside it stands on its curve before the high end, where no other number is.
function draw_link(link) {
    if (beside[low[link], high[link]] > 1)
        print "  " low[link] " -> " high[link] " [head" link_label(link) " labelangle=0 labeldistance=" (slide ? 4.5 : 3) \
            link_style(link) (leads_up(link) ? "" : " dir=back") "]"
    else
        print "  " (leads_up(link) ? low[link] " -> " high[link] : high[link] " -> " low[link]) " [" link_label(link) link_style(link) "]"
}
# a text with its lines broken at blanks, to have at most so many letters each where words allow it
function wrapped(text, most,    words, count, i, line, written) {
    count = split(text, words, " ")
    for (i = 1; i <= count; i++) {
        if (line != "" && length(line " " words[i]) > most) { written = written line "\n"; line = words[i] }
        else line = line (line == "" ? "" : " ") words[i]
    }
    return written line
}
# a text as a DOT string: a line's end is \n, other control characters are blanks, and & begins no character by name
function quoted(text,    i, letter, written) {
    for (i = 1; i <= length(text); i++) {
        letter = substr(text, i, 1)
        if (letter == "\n") letter = "\\n"
        else if (letter < " ") letter = " "
        else if (letter == "\"" || letter == "\\") letter = "\\" letter
        else if (letter == "&") letter = "&amp;"
        written = written letter
    }
    return "\"" written "\""
}

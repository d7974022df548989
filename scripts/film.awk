# Turns site comments, a listing of meshplan, places and the frames of a film into its page, after sites.awk, film.mesh.awk and film.words.awk. `cut`
# is the cut link, `both` 1 for both wavelengths; in the environment `name` is the mesh's name and `template` the file with the page around the frames.
# What a frame shows is the session after a call; what it says is the answer, and where this session differs from the one before.
BEGIN {
    frames = -1
    template = ENVIRON["template"]
    split("quiet offered taken refused released", state_names, " ")
}
$2 == "site" || $1 == "#site" { take_site($0) }
$1 == "mesh" { nodes = $2; links = $3 }
$1 == "link" { low[$2] = $3; high[$2] = $4; direction[$2] = $5; nth[$2] = beside[$3, $4]++ }
$1 == "link" && beside[$3, $4] > most_beside { most_beside = beside[$3, $4] }
$1 == "cut" && $2 == cut && frames < 0 { x_of[1] = y_of[2] = $3; y_of[1] = x_of[2] = $4 }
$1 == "place" { laid_right[$2] = $3; laid_up[$2] = $4 }
$1 == "start" || $1 == "deliver" || $1 == "cut" && frames == 0 && $2 != "none" { answer[++frames] = $0 }
$1 == "states" { states[frames, $2] = $3 }
$1 == "reached" { wavelength = $2; $1 = $2 = ""; reached[frames, wavelength] = $0 " " }
$1 == "status" { metres[$3] = $9 }
$1 == "route" { wavelength = $2; $1 = $2 = $3 = ""; route[wavelength] = $0 }
END {
    place_nodes(); place_links(); place_labels(); find_view()
    title = ENVIRON["name"] ": recovery after a cut of link " cut
    while ((getline line <template) > 0) {
        if (line == "@definitions@") print_definitions()
        else if (line == "@frames@") for (frame = 0; frame <= frames; frame++) print_frame(frame)
        else print filled(line)
    }
}

function escaped(text) {
    gsub(/&/, "\\&amp;", text)
    gsub(/</, "\\&lt;", text)
    gsub(/>/, "\\&gt;", text)
    gsub(/"/, "\\&quot;", text)
    return text
}
# a line of the template with its values: the title, the picture's width, and whether the words stand below the pictures
function filled(line) {
    line = put(line, "@width@", rightmost - left)
    line = put(line, "@below@", both || rightmost - left > 1.7 * (lowest - top) ? "below" : "beside")
    return put(line, "@title@", escaped(title))
}
function put(line, mark, value,    at) {
    at = index(line, mark)
    return at ? substr(line, 1, at - 1) value substr(line, at + length(mark)) : line
}

function state_of(frame, wavelength, link) {
    return substr(states[frame, wavelength], link + 1, 1) + 0
}
function is_reached(frame, wavelength, node) {
    return index(reached[frame, wavelength], " " node " ") > 0
}
# whether the back-up arc of a link leads from its low to its high end: on wavelength 1 it is the plan's arc turned round
function backs_up(wavelength, link) {
    return (direction[link] == 1) == (wavelength == 1)
}
# the links that were in one state in the frame before and are in another now
function changed(frame, wavelength, before, now,    link, list) {
    for (link = 0; link < links; link++)
        if (state_of(frame - 1, wavelength, link) == before && state_of(frame, wavelength, link) == now) list = list " " link
    return list
}
function under_way(frame, wavelength,    link, list) {
    for (link = 0; link < links; link++) if (state_of(frame, wavelength, link) % 2) list = list " " link
    return list
}

# A frame of the film: its pictures, and what it says.
function print_frame(frame,    wavelength) {
    count_delivery(answer[frame])
    print "<figure class=\"frame\">"
    print "<div class=\"pictures\">"
    for (wavelength = 1; wavelength <= 1 + both; wavelength++) print_picture(frame, wavelength)
    print "</div>"
    print "<figcaption>"
    print "<h2><span class=\"count\">" frame + 1 " of " frames + 1 "</span> " heading(frame) "</h2>"
    print "<p>" words(frame) "</p>"
    for (wavelength = 1; frame > 0 && wavelength <= 1 + both; wavelength++) print "<p>" counts(frame, wavelength) "</p>"
    print "<p class=\"answer\">The library answers <code>" answer[frame] "</code></p>"
    print "</figcaption>"
    print "</figure>"
}
function count_delivery(line,    word) {
    split(line, word, " ")
    if (word[1] != "deliver" || word[4] == "refused") return
    deliveries++
    made_on[word[3]]++
}
function print_picture(frame, wavelength,    link, node) {
    print "<div class=\"picture\">"
    if (both) print "<p class=\"wavelength\">Wavelength " wavelength "</p>"
    print "<svg viewBox=\"" view "\" role=\"img\" aria-label=\"" (both ? "Wavelength " wavelength ": " : "") in_words(frame, wavelength) "\">"
    for (link = 0; link < links; link++) print_link(frame, wavelength, link)
    print "<use href=\"#labels\"/>"
    for (node = 0; node < nodes; node++)
        print "<use href=\"#n" node mark_of(frame, wavelength, node) "\" class=\"" (is_reached(frame, wavelength, node) ? "reached" : "new") "\"/>"
    print "</svg>"
    print "</div>"
}
function mark_of(frame, wavelength, node) {
    if (frame == 0) return ""
    return node == x_of[wavelength] ? "x" : node == y_of[wavelength] ? "y" : ""
}
# An offered or taken link has its arrow head where its back-up arc ends, any other where its primary arc ends: there a refusal goes to.
function print_link(frame, wavelength, link,    state, leads_up) {
    state = state_of(frame, wavelength, link)
    if (frame > 0 && link == cut) {
        print "<use href=\"#l" link "\" class=\"cut\"/><use href=\"#cross\"/>"
        return
    }
    leads_up = backs_up(wavelength, link) == (state == 1 || state == 2)
    print "<use href=\"#l" link "\" class=\"" state_names[state + 1] (leads_up ? " up" : " down") "\"/>"
}

# How nodes, links and numbers are written for people, after sites.awk.

# a node with its site's name
function named(node) {
    return node (node in site_name ? " " site_name[node] : "")
}
# a site's name, or the node's number where it has none
function name_of(node) {
    return node in site_name ? site_name[node] : node
}
# two nodes by name, with blanks round the dash where a name has a blank or a dash
function names_of(one, other) {
    return name_of(one) (name_of(one) name_of(other) ~ /[ -]/ ? " - " : "-") name_of(other)
}
# a number of things: 1 link, 2 links
function counted(number, one, more) {
    return number " " (number == 1 ? one : more)
}
# a number with a comma before every three digits
function grouped(number,    text) {
    for (text = ""; length(number) > 3; number = substr(number, 1, length(number) - 3))
        text = "," substr(number, length(number) - 2) text
    return number text
}
function in_metres(metres) {
    return metres == "-" ? "length not known" : grouped(metres) " m"
}
# what is the matter with a mesh that has so many `parts` and `bridges`, these with their numbers in `bridge`
function faults_in_words() {
    return "not every link is protected: the mesh " (parts > 1 ? "is in " parts " parts" bridging(", and falls further apart without ") \
        : "falls apart " bridging("without "))
}
function bridging(words,    i) {
    if (!bridges) return ""
    words = words (bridges == 1 ? "link " : "any one of the links ") bridge[1]
    for (i = 2; i <= bridges; i++) words = words (i == bridges ? " and " : ", ") bridge[i]
    return words
}

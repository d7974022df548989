# Turns a listing of meshplan, the links of show and of a refused mesh the lines of survey into one JSON object, after sites.awk and lines.awk;
# examples/README.md says what its fields hold. `meaning` in the environment says what a refusal means.
# places have all their digits
BEGIN { CONVFMT = "%.15g" }
END {
    if (!nodes && !refused) exit 1
    print "{"
    print "  \"format\": 1,"
    print_list("nodes", nodes, "node")
    print_list("links", links, "link")
    print "  \"protected\": " (refused ? "false" : "true") ","
    print "  \"refusal\": " (refused ? refusal_object() : "null") ","
    print "  \"parts\": [" parts_text() "],"
    print "  \"bridges\": [" bridges_text() "],"
    print_list("cuts", refused ? 0 : links, "cut")
    print "}"
}
# a field with a list of objects, one in a line; the cuts are the last field
function print_list(name, count, kind,    i) {
    if (!count) print "  \"" name "\": []" (kind == "cut" ? "" : ",")
    for (i = 0; i < count; i++)
        print (i ? "    " : "  \"" name "\": [\n    ") object(kind, i) (i < count - 1 ? "," : kind == "cut" ? "\n  ]" : "\n  ],")
}
function object(kind, i) {
    return kind == "node" ? node_object(i) : kind == "link" ? link_object(i) : cut_object(i)
}
function node_object(node) {
    return "{\"node\": " node ", \"name\": " (node in site_name ? string(site_name[node]) : "null") \
        ", \"place\": " (node in site_right ? "[" site_right[node] + 0 ", " site_up[node] + 0 "]" : "null") "}"
}
function link_object(link) {
    return "{\"link\": " link ", \"low\": " low[link] ", \"high\": " high[link] ", \"direction\": " (refused ? "null" : direction[link]) \
        ", \"metres\": " some(link_metres[link]) ", \"pair\": " some(pair[link]) ", \"duct\": " some(duct[link]) "}"
}
# a number of a link, for which 0 says that there is none
function some(number) {
    return number == 0 ? "null" : number
}
function refusal_object() {
    return "{\"number\": " refusal ", \"place\": " place ", \"meaning\": " string(ENVIRON["meaning"]) "}"
}
# An accepted mesh is one part.
function parts_text(    i, text) {
    for (i = 0; !refused && i < nodes; i++) text = text (i ? " " : "") i
    if (!refused) part[parts = 1] = text
    for (i = 1; i <= parts; i++) text = (i > 1 ? text ", " : "") "[" commas(part[i]) "]"
    return text
}
function bridges_text(    i, text) {
    for (i = 1; i <= bridges; i++) text = text (i > 1 ? ", " : "") bridge[i]
    return text
}
function cut_object(cut) {
    return "{\"link\": " cut ", \"x\": " x[cut] ", \"y\": " y[cut] ", \"deliveries\": " deliveries[cut] \
        ", \"metres\": " (metres[cut] == "-" ? "null" : metres[cut]) ", \"route\": [" commas(route[cut]) "], \"nodes\": [" commas(route_nodes(cut)) "]}"
}
function commas(words) {
    gsub(/ /, ", ", words)
    return words
}
# a text as a JSON string; bytes above 127 stay, as UTF-8 has them
function string(text,    i, letter, written) {
    for (i = 1; i <= length(text); i++) {
        letter = substr(text, i, 1)
        written = written (letter < " " ? sprintf("\\u%04x", code(letter)) : letter == "\"" || letter == "\\" ? "\\" letter : letter)
    }
    return "\"" written "\""
}
# the number of a control character
function code(letter,    number) {
    for (number = 1; number < 32; number++) if (sprintf("%c", number) == letter) return number
    return 0
}

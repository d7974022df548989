# Takes site comments of a table apart: `# site NODE NAME.. [RIGHT UP]`, on a line of its own. The name can have blanks. Where the last two words are
# numbers they are the place, inches to the right and upwards; a name in double quotes is taken without them, so that it can end in numbers. Where
# no name stands before the place the node has none.
#   # site 3 UT 2.4 3.2           name UT, at 2.4 3.2
#   # site 3 Salt Lake City       name Salt Lake City, no place
#   # site 3 "Hall 7 12" 2.4 3.2  name Hall 7 12, at 2.4 3.2
#   # site 3 2.4 3.2              no name, at 2.4 3.2

# Notes what a line says of its node where it is a site comment: site_name[node], and where it has a place site_right[node] and site_up[node].
function take_site(line,    node, words, n) {
    if (line !~ /^[ \t]*#[ \t]*site[ \t]+[0-9]+[ \t]/) return 0
    sub(/^[ \t]*#[ \t]*site[ \t]+/, "", line)
    node = line + 0
    sub(/^[0-9]+[ \t]+/, "", line)
    sub(/[ \t\r]+$/, "", line)
    n = split(line, words, /[ \t]+/)
    if (n >= 2 && is_place(words[n - 1]) && is_place(words[n])) {
        site_right[node] = words[n - 1]
        site_up[node] = words[n]
        sub(/[^ \t]+[ \t]+[^ \t]+$/, "", line)
        sub(/[ \t]+$/, "", line)
    }
    if (line ~ /^".*"$/ && length(line) > 1) line = substr(line, 2, length(line) - 2)
    if (line != "") site_name[node] = line
    return 1
}
function is_place(word) {
    return length(word) < 18 && word ~ /^[-+]?([0-9]+[.]?[0-9]*|[.][0-9]+)$/
}

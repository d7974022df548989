# The lines of a table, without a byte order mark and carriage returns. With part=data it prints the lines with data, each after its number and without
# its comment: `7 0 1 420`. With part=sites it prints the site comments, which stand on lines of their own.
FNR == 1 { sub(/^\357\273\277/, "") }
{ gsub(/[\r\f]/, " ") }
part == "sites" && /^[ \t]*#[ \t]*site[ \t]/
part == "data" {
    sub(/#.*/, "")
    if (NF) {
        $1 = $1
        print FNR, $0
    }
}

# Prints the exported functions of Rattle sources, a C header or a Rust file as lines NAME(PARAMETER: TYPE, ..) -> TYPE in Rust's notation, so that they can
# be compared: awk -v language=rattle|c|rust -f scripts/interface.awk FILE..

# The sizes that the header and the Rust file give names.
/^#define COVETUREEN_MOST_[A-Z]+ [0-9]+$/ { names[$2] = $3 }
/^pub const MOST_[A-Z]+: usize = [0-9]+;$/ { names[substr($3, 1, length($3) - 1)] = $6 + 0 }

# A parameter of a header: TYPE NAME, TYPE *NAME, const TYPE *NAME or TYPE NAME[SIZE].
function from_c(parameter,    words, count, type, name, size) {
    count = split(parameter, words, " ")
    name = words[count]
    type = words[count - 1]
    sub(/_t$/, "", type)
    sub(/^uint/, "u", type)
    if (type == "size") type = "usize"
    if (words[1] == "const") return substr(name, 2) ": *const " type
    if (name ~ /^\*/) return substr(name, 2) ": &mut " type
    if (name !~ /\[/) return name ": " type
    size = substr(name, index(name, "[") + 1)
    sub(/\]/, "", size)
    return substr(name, 1, index(name, "[") - 1) ": &mut [" type "; " names[size] "]"
}

# A parameter of a Rattle or Rust function: a slice is a pointer and a length.
function from_rust(parameter,    name) {
    if (parameter ~ /: &\[/) {
        sub(/&\[/, "*const ", parameter)
        sub(/\]/, "", parameter)
        return parameter ", length: usize"
    }
    for (name in names) sub("; " name "]", "; " names[name] "]", parameter)
    return parameter
}

# One function, from its name on: NAME(PARAMETERS) and what follows.
function show(text,    inside, parts, count, line, i) {
    inside = substr(text, index(text, "(") + 1)
    sub(/\).*/, "", inside)
    sub(/, *$/, "", inside)
    count = split(inside, parts, / *, */)
    line = substr(text, 1, index(text, "(") - 1) "("
    for (i = 1; i <= count; i++) {
        sub(/^ +/, "", parts[i])
        line = line (i > 1 ? ", " : "") (language == "c" ? from_c(parts[i]) : from_rust(parts[i]))
    }
    print line ") -> u8"
}

language == "c" && /^uint8_t covetureen_/ || language == "rattle" && /^pub extern "C" fn / || language == "rust" && /^ *pub fn covetureen_/ {
    text = ""
    open = 1
}
open { text = text " " $0 }
open && (language == "c" ? /;/ : /-> u8/) {
    open = 0
    gsub(/ +/, " ", text)
    text = substr(text, index(text, "covetureen_"))
    show(text)
}

# The items of crate files, for scripts/moved: kind, crate, file, name, text; the lines of a text are separated by \001.
function flush() {
    if (kind != "" && text != "") print kind "\t" crate "\t" file "\t" name "\t" text
    kind = ""; text = ""
}
function add(line) {
    sub(/[ \t]+$/, "", line)
    text = text == "" ? line : text "\001" line
}
function begin(of, called) {
    flush()
    kind = of; name = called
}
# the name that a declaration of antt declares, without its modifiers
function declared(line,    word, i, n, words) {
    n = split(line, words, " ")
    for (i = 1; i <= n; i++) {
        word = words[i]
        if (word !~ /^(pub|abbrev|unfoldable|opaque|private|record|data)$/) return word
    }
    return ""
}
FNR == 1 {
    flush()
    split(FILENAME, part, "/")
    crate = part[2]
    file = FILENAME
    sub(/^crates\/[^\/]*\//, "", file)
    whole = file ~ /^specs\/Laws/ || file ~ /^proofs\//
    if (whole) {
        called = file
        sub(/^(specs|proofs)\//, "", called)
        sub(/(\/Proof)?\.antt$/, "", called)
    }
    module = file
    sub(/^src\//, "", module)
    sub(/\.rt$/, "", module)
    module = module == "lib" || module == "main" ? "" : module "::"
    gsub(/\//, "::", module)
    type = ""; head = 0; depth = 0; modules = 0
}
/^[ \t]*$/ || /^[ \t]*(--|\/\/)/ || /^((ghost|pub|unfoldable) )*use / || /^ *open / || /^(pub )?mod / { next }
whole {
    if (kind == "") begin("proof", called)
    add($0)
    next
}
# a declaration with its clauses; what is indented further belongs to it, but a module's declarations stand by themselves
file ~ /^specs\// {
    match($0, /^ */)
    indent = RLENGTH
    if (indent < depth) depth = indent
    if (indent == depth && $1 != "unfolding" && $1 !~ /^[}]/) {
        if ($1 == "module") {
            begin("definition", "module " ++modules)
            depth = indent + 2
        } else if (declared($0) != name || kind == "") begin("definition", declared($0))
    }
    add($0)
    next
}
# code: the types, and the head of each function up to its body
/^impl / { type = $2 "::"; next }
/^}/ && !head {
    if (kind == "definition") add($0)
    flush()
    type = ""
    next
}
/^(pub(\(crate\))? )?(struct|enum) / {
    called = $0
    sub(/^(pub(\(crate\))? )?(struct|enum) /, "", called)
    sub(/[ <{].*/, "", called)
    begin("definition", called)
    add($0)
    next
}
kind == "definition" { add($0); next }
/^ *(pub(\(crate\))? )?const / {
    called = $0
    sub(/^ *(pub(\(crate\))? )?const /, "", called)
    sub(/:.*/, "", called)
    begin("definition", module type called)
    add($0)
    flush()
    next
}
/^ *(pub(\(crate\))? )?(extern "C" )?fn / {
    called = $0
    sub(/^ *(pub(\(crate\))? )?(extern "C" )?fn /, "", called)
    sub(/[(<].*/, "", called)
    begin("contract", module type called)
    head = 1
}
head {
    line = $0
    if (line ~ /^ *{$/) { head = 0; flush(); next }
    if (line ~ / {$/ && line !~ /(ensures|requires|ghost)/) {
        sub(/ {$/, "", line)
        add(line)
        head = 0; flush()
        next
    }
    add(line)
}
END { flush() }

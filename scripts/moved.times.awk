# The check times in two logs of the gate side by side (scripts/moved): each crate's check, and its must-fail edits.
function note(crate) { if (!(crate in seen)) { seen[crate] = 1; crates[++n] = crate } }
# the seconds in the last parenthesis of a line
function seconds(line) {
    sub(/ s\)[^(]*$/, "", line)
    sub(/.*[( ]/, "", line)
    return line + 0
}
FNR == 1 { log_number++ }
/^rt: [a-z_]+ proved \([0-9]+ s\)/ { note($2); check[$2, log_number] = seconds($0); checks[log_number] += seconds($0) }
/must-fail [a-z_]+\/[^ ]+: refused/ {
    for (i = 1; i <= NF; i++) if ($i == "must-fail") crate = $(i + 1)
    sub(/\/.*/, "", crate)
    note(crate)
    s = seconds($0)
    edits[crate, log_number]++
    spent[crate, log_number] += s
    if (s > longest[crate, log_number]) longest[crate, log_number] = s
    all[log_number]++; all_spent[log_number] += s
}
function cell(crate, l) { return (crate, l) in check ? check[crate, l] : "" }
function cells(crate, l) {
    return (crate, l) in edits ? edits[crate, l] " | " spent[crate, l] " | " longest[crate, l] : " | | "
}
END {
    print "Seconds, before and after:"
    print ""
    print "| crate | check before | check after | edits before | seconds in all | longest | edits after | seconds in all | longest |"
    print "|---|--:|--:|--:|--:|--:|--:|--:|--:|"
    for (c = 1; c <= n; c++)
        printf "| `%s` | %s | %s | %s | %s |\n", crates[c], cell(crates[c], 1), cell(crates[c], 2), cells(crates[c], 1), cells(crates[c], 2)
    printf "| all | %d | %d | %d | %d | | %d | %d | |\n", checks[1], checks[2], all[1], all_spent[1], all[2], all_spent[2]
}

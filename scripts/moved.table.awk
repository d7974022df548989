# A row for each crate and kind, from the items before and after (scripts/moved).
BEGIN {
    FS = "\t"
    split("definition contract proof", kinds, " ")
}
function count_lines(text,    parts) { return split(text, parts, "\001") }
# the lines that are in one text and not in the other, as +added -removed
function changed(before, after,    parts, n, i, left, added, removed) {
    n = split(before, parts, "\001")
    for (i = 1; i <= n; i++) left[parts[i]]++
    removed = n
    n = split(after, parts, "\001")
    added = 0
    for (i = 1; i <= n; i++) if (left[parts[i]] > 0) { left[parts[i]]--; removed-- } else added++
    return "+" added " -" removed
}
# how many lines of the later text stand in the earlier one
function common(before, after,    parts) {
    split(changed(before, after), parts, /[+ ]/)
    return count_lines(after) - parts[2]
}
function lines(n) { return "(" n (n == 1 ? " line)" : " lines)") }
function put(list, key, what) { list[key] = list[key] == "" ? what : list[key] ", " what }
FNR == NR {
    n_old++
    key = $1 SUBSEP $2 SUBSEP $3 SUBSEP $4
    old_text[key] = $5
    old_key[n_old] = key
    kind_of[key] = $1; crate_of[key] = $2; name_of[key] = $4
    next
}
{
    n_new++
    new_kind[n_new] = $1; new_crate[n_new] = $2; new_name[n_new] = $4; new_text[n_new] = $5
    new_key[n_new] = $1 SUBSEP $2 SUBSEP $3 SUBSEP $4
    if (!($2 in seen)) { seen[$2] = 1; crates[++n_crates] = $2 }
}
# the last word of a name: a function or a proof without its module
function base(name) {
    sub(/.*(::|\/)/, "", name)
    return name
}
# an old item, not yet taken, that stands for new item i: the same text under the same name or in another module; the same name in
# the crate; and half of its lines at least under the same name, or in another module
function partner(i, how,    j, key) {
    for (j = 1; j <= n_old; j++) {
        key = old_key[j]
        if (taken[key] || kind_of[key] != new_kind[i] || base(name_of[key]) != base(new_name[i])) continue
        if (how ~ /^name/ && name_of[key] != new_name[i]) continue
        if (how ~ /text$/ && old_text[key] == new_text[i]) return key
        if (how ~ /crate$/ && crate_of[key] == new_crate[i]) return key
        if (how ~ /half$/ && common(old_text[key], new_text[i]) * 2 >= count_lines(new_text[i])) return key
    }
    return ""
}
function pair(i, key) { match_of[i] = key; taken[key] = 1 }
END {
    for (i = 1; i <= n_new; i++) if (new_key[i] in old_text) pair(i, new_key[i])
    split("name-text module-text name-crate name-half module-half", ways, " ")
    for (w = 1; w <= 5; w++)
        for (i = 1; i <= n_new; i++) if (!(i in match_of)) { key = partner(i, ways[w]); if (key != "") pair(i, key) }

    for (i = 1; i <= n_new; i++) {
        at = new_crate[i] SUBSEP new_kind[i]
        key = (i in match_of) ? match_of[i] : ""
        if (key == "") put(came, at, "`" new_name[i] "` " count_lines(new_text[i]))
        else if (old_text[key] != new_text[i]) {
            from = crate_of[key] == new_crate[i] ? "" : ", of " crate_of[key]
            put(altered, at, "`" new_name[i] "` " changed(old_text[key], new_text[i]) from)
        } else if (crate_of[key] != new_crate[i]) { arrived[at SUBSEP crate_of[key]]++; arrived_lines[at SUBSEP crate_of[key]] += count_lines(new_text[i]) }
        else { stayed[at]++; stayed_lines[at] += count_lines(new_text[i]) }
    }
    for (j = 1; j <= n_old; j++) if (!taken[old_key[j]]) {
        key = old_key[j]
        put(gone, crate_of[key] SUBSEP kind_of[key], "`" name_of[key] "` " count_lines(old_text[key]))
        if (!(crate_of[key] in seen)) { seen[crate_of[key]] = 1; crates[++n_crates] = crate_of[key] }
    }
    for (where in arrived) {
        split(where, p, SUBSEP)
        put(moved, p[1] SUBSEP p[2], arrived[where] " of `" p[3] "` " lines(arrived_lines[where]))
    }

    print "| crate | | stayed | moved here unaltered | changed | new | gone |"
    print "|---|---|---|---|---|---|---|"
    for (c = 1; c <= n_crates; c++) {
        crate = crates[c]
        if (!moves(crate)) {
            whole = whole == "" ? "`" crate "`" : whole ", `" crate "`"
            for (k = 1; k <= 3; k++) { kept[k] += stayed[crate, kinds[k]]; kept_lines[k] += stayed_lines[crate, kinds[k]] }
        } else for (k = 1; k <= 3; k++) {
            at = crate SUBSEP kinds[k]
            if ((at in stayed) || moves_in(at))
                printf "| `%s` | %ss | %s | %s | %s | %s | %s |\n", crate, kinds[k],
                    at in stayed ? stayed[at] " " lines(stayed_lines[at]) : "", moved[at], altered[at], came[at], gone[at]
        }
    }
    if (whole != "") {
        print ""
        printf "All of %s stayed: %d definitions %s, %d contracts %s, %d proofs %s.\n", whole,
            kept[1], lines(kept_lines[1]), kept[2], lines(kept_lines[2]), kept[3], lines(kept_lines[3])
    }
}
function moves_in(at) { return (at in moved) || (at in altered) || (at in came) || (at in gone) }
function moves(crate,    k) {
    for (k = 1; k <= 3; k++) if (moves_in(crate SUBSEP kinds[k])) return 1
    return 0
}

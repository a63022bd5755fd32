# How far rt is. Reads the crates, in the order in which rt comes to them, the names of the steps told before, the folders out/ of crates
# that the gate has begun, and what rt said; a step is a crate, or an edit, which has a / in its name. Prints what rt said of each step that
# ended and was not told, with its number among the crates or the EDITS, adds its name to WORK/told, and writes what is under way to
# WORK/now. Only the gate proves crates side by side and names each that an earlier run proved; elsewhere a crate's number is its place.
function is_edit(name) { return name ~ /\// }

function ended(name, what) {
    if (name in done) return
    done[name]
    amount[is_edit(name)]++
    if (name in told) return
    print (is_edit(name) || gate ? amount[is_edit(name)] : place[name]) " of " (is_edit(name) ? edits : crates) ": " what
    print name >> (work "/told")
}

kind == "crate" { name_of[++crates] = $1; place[$1] = crates; next }
kind == "told" { told[$0]; next }
kind == "begun" { split($0, part, "/"); begun[part[2]]; next }

# The gate's.
/^rt: must-fail / { name = $3; sub(/:$/, "", name); sub(/^rt: /, ""); ended(name, $0); next }
/^rt: [^ ]+ (proved$|NOT PROVED)/ { name = $2; sub(/^rt: /, ""); ended(name, $0); next }
/^rt: [^ ]+ is kept: / { ended($2, $2 " is kept from an earlier run"); next }

# One crate's after another.
/^rt: chose --jobs [0-9]+ for / && !gate { current = $NF; begun[current]; next }
/^logic=proved / && current != "" { ended(current, current " proved") }
/^logic=not-proved/ && current != "" { ended(current, current " NOT PROVED") }
/^rt: the library [^ ]+ did not build/ { ended($4, $4 " NOT PROVED") }

END {
    for (i = 1; i <= crates; i++) {
        name = name_of[i]
        if (name in begun || name in done) last = gate ? last + 1 : i
        if (name in begun && !(name in done)) under_way = under_way (under_way == "" ? ": " : ", ") name
    }
    if (gate && amount[0] == crates) now = "trying must-fail edits, " edits " in all"
    else now = "proving " last + 0 " of " crates under_way
    print now > (work "/now")
}

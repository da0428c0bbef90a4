# Reads crates.txt and writes a line for each crate, those that stand on most first: its level, its name, what it stands on,
# and what it is, with tabs between them. A crate's level is one above the highest that it stands on. What it stands on is
# left out where another that it stands on does so already, and so are the toolchain's own crates, which crates.txt does
# not list.
/^#/ { about = substr($0, 3) }

/^[a-z]/ {
    name = $1
    sub(/:$/, "", name)
    names[++crates] = name
    what[name] = about
    $1 = ""
    needs[name] = $0
}

function level(name,   i, count, need, most) {
    if (name in levels) return levels[name]
    levels[name] = 0
    count = split(needs[name], need, " ")
    for (i = 1; i <= count; i++)
        if (need[i] in what && level(need[i]) + 1 > most) most = level(need[i]) + 1
    return levels[name] = most + 0
}

# does a stand on b, at one remove or more?
function standsOn(a, b,   i, count, need) {
    if ((a, b) in stands) return stands[a, b]
    stands[a, b] = 0
    count = split(needs[a], need, " ")
    for (i = 1; i <= count; i++)
        if (need[i] == b || standsOn(need[i], b)) stands[a, b] = 1
    return stands[a, b]
}

function isNext(name, b,   i, count, need) {
    count = split(needs[name], need, " ")
    for (i = 1; i <= count; i++) if (standsOn(need[i], b)) return 0
    return b in what
}

function over(name,   i, count, need, list) {
    count = split(needs[name], need, " ")
    for (i = 1; i <= count; i++) if (isNext(name, need[i])) list = list " " need[i]
    return substr(list, 2)
}

END {
    for (i = 1; i <= crates; i++) if (level(names[i]) > top) top = level(names[i])
    for (at = top; at >= 0; at--)
        for (i = 1; i <= crates; i++)
            if (level(names[i]) == at) printf "%d\t%s\t%s\t%s\n", at, names[i], over(names[i]), what[names[i]]
}

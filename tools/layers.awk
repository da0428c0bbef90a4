# Draws the lines of levels.awk, each with a kind in front (definitions, code or program): a row for each level, a box for
# each crate, and a line down to each crate that it stands on. A line that passes a level goes by a place of its own there,
# so that none runs through a box; all that go to one crate share these places.
BEGIN {
    FS = "\t"
    letter = 8; tall = 26; rowTall = 62; gap = 18; margin = 20; sweeps = 12
}

function place(name, at) {
    if (name in levelOf) return
    levelOf[name] = at
    row[at, ++count[at]] = name
    width[name] = name ~ /@/ ? 4 : length(name) * letter + 20
}

function link(a, b) {
    if ((a, b) in linked) return
    linked[a, b] = 1
    downs[a] = downs[a] " " b
    ups[b] = ups[b] " " a
}

{
    place($3, $2)
    kind[$3] = $1; over[$3] = $4; about[$3] = $5
    names[++crates] = $3
    if ($2 > top) top = $2
}

# the way down from one crate to another, by a place on each level between them
function lower(name, to,   at, from, by) {
    from = name
    for (at = levelOf[name] - 1; at > levelOf[to]; at--) {
        by = to "@" at
        place(by, at)
        link(from, by)
        from = by
    }
    link(from, to)
}

function mean(list, of, otherwise,   i, n, name, sum) {
    n = split(list, name, " ")
    for (i = 1; i <= n; i++) sum += of[name[i]]
    return n ? sum / n : otherwise
}

# puts a row into the order of the means of what it is linked to
function order(at, links,   i, j, name, want) {
    for (i = 1; i <= count[at]; i++) want[row[at, i]] = mean(links[row[at, i]], rank, i)
    for (i = 2; i <= count[at]; i++) {
        name = row[at, i]
        for (j = i - 1; j >= 1 && want[row[at, j]] > want[name]; j--) row[at, j + 1] = row[at, j]
        row[at, j + 1] = name
    }
    for (i = 1; i <= count[at]; i++) rank[row[at, i]] = i
}

function orderAll(   sweep, at) {
    for (at = 0; at <= top; at++) order(at, downs)
    for (sweep = 1; sweep <= sweeps; sweep++) {
        for (at = top - 1; at >= 0; at--) order(at, ups)
        for (at = 1; at <= top; at++) order(at, downs)
    }
}

# sets a row as near to what it is linked to as its widths let it
function settle(at,   i, name, want, least, end, shift) {
    for (i = 1; i <= count[at]; i++) {
        name = row[at, i]
        want = mean(downs[name] " " ups[name], x, x[name])
        least = end + gap + width[name] / 2
        x[name] = i == 1 || want > least ? want : least
        end = x[name] + width[name] / 2
        shift += want - x[name]
    }
    for (i = 1; i <= count[at]; i++) x[row[at, i]] += shift / count[at]
}

function settleAll(   sweep, at) {
    for (sweep = 1; sweep <= sweeps; sweep++) {
        for (at = top; at >= 0; at--) settle(at)
        for (at = 0; at <= top; at++) settle(at)
    }
}

# moves all to the right of the margin, and gives the picture's width
function frame(   name, least, most) {
    least = 1e6
    for (name in x) if (x[name] - width[name] / 2 < least) least = x[name] - width[name] / 2
    for (name in x) x[name] = int(x[name] - least + margin)
    for (name in x) if (x[name] + width[name] / 2 > most) most = x[name] + width[name] / 2
    return int(most + margin)
}

function y(at) { return margin + (top - at) * rowTall }

function lines(at,   i, j, n, name, to) {
    for (i = 1; i <= count[at]; i++) {
        name = row[at, i]
        if (name ~ /@/) printf "<path d=\"M%d %d V%d\"/>\n", x[name], y(at), y(at) + tall
        n = split(downs[name], to, " ")
        for (j = 1; j <= n; j++) printf "<path d=\"M%d %d L%d %d\"/>\n", x[name], y(at) + tall, x[to[j]], y(at - 1)
    }
}

function escaped(text) {
    gsub(/&/, "\\&amp;", text); gsub(/</, "\\&lt;", text)
    return text
}

function box(name,   at) {
    at = y(levelOf[name])
    printf "<g><title>%s: %s</title>", name, escaped(about[name])
    printf "<rect class=\"%s\" x=\"%d\" y=\"%d\" width=\"%d\" height=\"%d\" rx=\"4\"/>", kind[name], int(x[name] - width[name] / 2), at, width[name], tall
    printf "<text class=\"name\" text-anchor=\"middle\" x=\"%d\" y=\"%d\">%s</text></g>\n", x[name], at + 18, name
}

END {
    for (i = 1; i <= crates; i++) {
        n = split(over[names[i]], to, " ")
        for (j = 1; j <= n; j++) lower(names[i], to[j])
    }
    orderAll()
    for (at = 0; at <= top; at++) for (i = 1; i <= count[at]; i++) x[row[at, i]] = i * 60
    settleAll()
    wide = frame(); high = y(0) + tall + margin
    printf "<svg xmlns=\"http://www.w3.org/2000/svg\" viewBox=\"0 0 %d %d\" width=\"%d\" height=\"%d\">\n", wide, high, wide, high
    print "<title>The crates, each over those that it stands on: made by tools/pictures from crates.txt</title>"
    print "<style>"
    print "text { font: bold 13px 'DejaVu Sans Mono', monospace; fill: #222 } rect { stroke: #555 } #back { fill: #fff; stroke: none }"
    print ".definitions { fill: #fff2c8 } .code { fill: #e4eefa } .program { fill: #e0f3e0 } path { stroke: #888; fill: none }"
    print "</style>"
    printf "<rect id=\"back\" width=\"%d\" height=\"%d\"/>\n", wide, high
    for (at = top; at >= 0; at--) lines(at)
    for (i = 1; i <= crates; i++) box(names[i])
    print "</svg>"
}

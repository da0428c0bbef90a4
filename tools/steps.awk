# Draws docs/steps.txt: a box for each step at its row and column, its ways written in it, and an arrow for each way
# to another step. A way to Rest ends the call, and has no arrow.
BEGIN {
    FS = " *[|] *"
    letter = 6.6; line = 15; pad = 8; between = 36; lane = 9; margin = 20
}

function wider(text) { if (length(text) > longest) longest = length(text) }

# what a box says of a way
function told(to, answer, when) {
    if (to == "Rest") return "ends " answer ": " when
    return "> " to ": " when
}

$1 == "step" {
    names[++steps] = $2
    called[$2] = $3 == $4 ? $3 : $3 "  |  " $4
    split($5, place, " ")
    row[$2] = place[1]; column[$2] = place[2]; does[$2] = $6
    if (place[1] > rows) rows = place[1]
    if (place[2] > columns) columns = place[2]
    # a close and a shutdown are named by their steps' own names
    if (called[$2] ~ /:/) called[$2] = ""
    wider(called[$2]); wider(does[$2])
}

$1 ~ /^way/ {
    text = ($1 ~ /[*]/ ? "* " : "  ") told($3, $6, $7)
    said[$2, ++ways[$2]] = text
    wider(text)
    if ($3 == "Rest" || ($2, $3) in drawn) next
    drawn[$2, $3] = 1
    from[++arrows] = $2; to[arrows] = $3
    # an arrow that is not to the next box takes a lane under the upper of its two rows
    if (!beside($2, $3) && !below($2, $3)) lanes[upper($2, $3)]++
}

function beside(a, b) { return row[a] == row[b] && column[b] == column[a] + 1 }
function below(a, b) { return column[a] == column[b] && row[b] == row[a] + 1 }
function upper(a, b) { return row[b] < row[a] ? row[b] : row[a] }

function rowHeights(   i, name, tall) {
    for (i = 1; i <= steps; i++) {
        name = names[i]
        tall = pad * 2 + line * (3 + ways[name])
        if (tall > height[row[name]]) height[row[name]] = tall
    }
}

function rowTops(   r, y) {
    y = margin
    for (r = 1; r <= rows; r++) {
        top[r] = y
        y += height[r] + between + lane * lanes[r]
    }
    return y - between + margin
}

function left(name) { return margin + (column[name] - 1) * (width + between) }
function middle(name) { return left(name) + width / 2 }
function level(name) { return top[row[name]] + height[row[name]] / 2 }
function foot(name) { return top[row[name]] + height[row[name]] }

function escaped(text) {
    gsub(/&/, "\\&amp;", text); gsub(/</, "\\&lt;", text)
    sub(/> /, "\\&#8594; ", text)
    return text
}

function write(x, y, class, text) {
    printf "<text class=\"%s\" x=\"%d\" y=\"%d\" xml:space=\"preserve\">%s</text>\n", class, x, y, escaped(text)
}

function box(name,   x, y, i) {
    x = left(name); y = top[row[name]]
    printf "<rect x=\"%d\" y=\"%d\" width=\"%d\" height=\"%d\" rx=\"4\"/>\n", x, y, width, height[row[name]]
    x += pad; y += pad - 4
    write(x, y += line, "name", name)
    if (called[name] != "") write(x, y += line, "called", called[name])
    write(x, y += line, "does", does[name])
    for (i = 1; i <= ways[name]; i++) write(x, y += line, "way", said[name, i])
}

# each arrow leaves and comes in a little beside the one before it
function leaves(name) { return middle(name) - 16 * ++outs[name] }
function enters(name) { return middle(name) + 16 * ++ins[name] }
function laneUnder(r) { return top[r] + height[r] + between / 2 - 4 + lane * used[r]++ }

function path(a, b,   out, at, x) {
    if (beside(a, b)) return sprintf("M%d %d H%d", left(a) + width, level(a), left(b))
    if (below(a, b)) return sprintf("M%d %d V%d", middle(a), foot(a), top[row[b]])
    out = leaves(a)
    if (row[b] < row[a]) return sprintf("M%d %d V%d H%d V%d", out, top[row[a]], laneUnder(row[b]), enters(b), foot(b))
    x = left(b) - between + 6 + 6 * aside[b]++
    at = level(b) + 8 * (aside[b] - 1)
    return sprintf("M%d %d V%d H%d V%d H%d", out, foot(a), laneUnder(row[a]), x, at, left(b))
}

END {
    width = int(longest * letter) + 2 * pad
    rowHeights()
    tall = rowTops()
    wide = 2 * margin + columns * width + (columns - 1) * between
    printf "<svg xmlns=\"http://www.w3.org/2000/svg\" viewBox=\"0 0 %d %d\" width=\"%d\" height=\"%d\">\n", wide, tall, wide, tall
    print "<title>The steps of a party: made by tools/pictures from docs/steps.txt</title>"
    print "<style>"
    print "text { font: 11px 'DejaVu Sans Mono', monospace; fill: #222 } .name { font-weight: bold; font-size: 13px }"
    print ".called { fill: #06c } .does { font-style: italic } rect { fill: #f6f6f2; stroke: #555 }"
    print "path { fill: none; stroke: #06c; stroke-width: 1.3; marker-end: url(#tip) } #back { fill: #fff; stroke: none }"
    print "</style>"
    print "<defs><marker id=\"tip\" viewBox=\"0 0 8 8\" refX=\"8\" refY=\"4\" markerWidth=\"8\" markerHeight=\"8\" orient=\"auto\"><polygon points=\"0,0 8,4 0,8\" fill=\"#06c\"/></marker></defs>"
    printf "<rect id=\"back\" width=\"%d\" height=\"%d\"/>\n", wide, tall
    for (i = 1; i <= arrows; i++) printf "<path d=\"%s\"/>\n", path(from[i], to[i])
    for (i = 1; i <= steps; i++) box(names[i])
    print "</svg>"
}

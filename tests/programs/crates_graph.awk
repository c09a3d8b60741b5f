# Whether one crate stands on another.
function reaches(from, to,   i) {
    if ((from, to) in known) return known[from, to]
    known[from, to] = 0
    for (i = 1; i <= uses[from]; i++)
        if (use[from, i] == to || reaches(use[from, i], to)) return known[from, to] = 1
    return 0
}
# How many crates stand below one another under this one.
function level(name,   i, most, below) {
    if (name in levels) return levels[name]
    most = -1
    for (i = 1; i <= uses[name]; i++) {
        below = level(use[name, i])
        if (below > most) most = below
    }
    return levels[name] = most + 1
}
# Whether a crate uses another one, and not through a third.
function is_drawn(name, i,   j) {
    for (j = 1; j <= uses[name]; j++)
        if (j != i && reaches(use[name, j], use[name, i])) return 0
    return 1
}
# Where a place would be best: in the middle of those that it is joined with.
function middle(name,   i, sum) {
    for (i = 1; i <= joins[name]; i++) sum += x[join_to[name, i]]
    return joins[name] ? sum / joins[name] : x[name]
}
function join(one, other) {
    join_to[one, ++joins[one]] = other
    join_to[other, ++joins[other]] = one
}
# Adds a crate, or a place that a line passes, to a level.
function place(name, at) {
    row[at, ++width[at]] = name
    x[name] = width[at] * across
    places[name] = at
}
# How wide a place is: a crate has room for its name.
function room(name) { return name in group ? across : 36 }
# A line from a crate to one that it uses, with a place at each level between.
function draw(from, to,   at, last, passed) {
    last = from
    for (at = levels[from] - 1; at > levels[to]; at--) {
        passed = from "/" to "/" at
        place(passed, at)
        join(last, passed)
        parts[++lines] = last " " passed
        last = passed
    }
    join(last, to)
    parts[++lines] = last " " to
}
# Puts the places of a level in the order of where they would be best.
function arrange(at,   i, j, held, names, left) {
    for (i = 1; i <= width[at]; i++) { names[i] = row[at, i]; best[names[i]] = middle(names[i]) }
    for (i = 2; i <= width[at]; i++) {
        held = names[i]
        for (j = i - 1; j >= 1 && best[names[j]] > best[held]; j--) names[j + 1] = names[j]
        names[j + 1] = held
    }
    left = 0
    for (i = 1; i <= width[at]; i++) left -= room(names[i]) / 2
    for (i = 1; i <= width[at]; i++) {
        row[at, i] = names[i]
        x[names[i]] = left + room(names[i]) / 2
        left += room(names[i])
        if (left > widest) widest = left
    }
}
function top_of(name) { return (top - places[name]) * down + 20 }
BEGIN { across = 150; down = 62; half = 64; tall = 28 }
/^# / { if ($2 != "tests") headings[++groups] = substr($0, 3); tests = $2 == "tests"; next }
/^[a-z]/ && !tests {
    split($0, sides, ":")
    split(sides[1], words, " ")
    name = words[1]
    crates[++count] = name
    group[name] = groups
    number = split(sides[2], words, " ")
    for (i = 1; i <= number; i++) wanted[name, i] = words[i]
    wants[name] = number
}
END {
    for (c = 1; c <= count; c++) stands[crates[c]] = 1
    for (c = 1; c <= count; c++) {
        name = crates[c]
        for (i = 1; i <= wants[name]; i++)
            if (wanted[name, i] in stands) use[name, ++uses[name]] = wanted[name, i]
    }
    for (c = 1; c <= count; c++) {
        name = crates[c]
        place(name, level(name))
        if (level(name) > top) top = level(name)
    }
    for (c = 1; c <= count; c++) {
        name = crates[c]
        for (i = 1; i <= uses[name]; i++)
            if (is_drawn(name, i)) draw(name, use[name, i])
    }
    for (sweep = 0; sweep < 30; sweep++) {
        for (at = 0; at <= top; at++) arrange(at)
        for (at = top; at >= 0; at--) arrange(at)
    }
    if (widest < groups * 52) widest = groups * 52
    printf "<svg xmlns=\"http://www.w3.org/2000/svg\" viewBox=\"%d %d %d %d\" font-family=\"sans-serif\" font-size=\"13\">\n", -widest - 10, -30, 2 * widest + 20, (top + 1) * down + 30
    print "<title>Which crate stands on which</title>"
    print "<style>"
    print "text { fill: #1b1b1b; text-anchor: middle } path { fill: none; stroke: #8a8a8a }"
    split("#dbe9f6 #e0f0dc #f6ecd2 #e9e0f5 #f8dfdc #e4e4e4", light, " ")
    split("#234a6b #2c5527 #665318 #4b3770 #743530 #4d4d4d", dark, " ")
    for (g = 1; g <= groups; g++) printf ".g%d { fill: %s; stroke: #8a8a8a }\n", g, light[g]
    print "@media (prefers-color-scheme: dark) {"
    print "text { fill: #f0f0f0 }"
    for (g = 1; g <= groups; g++) printf ".g%d { fill: %s }\n", g, dark[g]
    print "}"
    print "</style>"
    for (g = 1; g <= groups; g++) {
        left = -groups * 52 + (g - 1) * 104
        printf "<rect class=\"g%d\" x=\"%d\" y=\"-24\" width=\"98\" height=\"20\" rx=\"4\"/><text x=\"%d\" y=\"-10\">%s</text>\n", g, left, left + 49, headings[g]
    }
    for (l = 1; l <= lines; l++) {
        split(parts[l], ends, " ")
        from = top_of(ends[1]) + (ends[1] in group ? tall : tall / 2)
        to = top_of(ends[2]) + (ends[2] in group ? 0 : tall / 2)
        printf "<path d=\"M%d %d C%d %d %d %d %d %d\"/>\n", x[ends[1]], from, x[ends[1]], (from + to) / 2, x[ends[2]], (from + to) / 2, x[ends[2]], to
    }
    for (c = 1; c <= count; c++) {
        name = crates[c]
        printf "<rect class=\"g%d\" x=\"%d\" y=\"%d\" width=\"%d\" height=\"%d\" rx=\"5\"/><text x=\"%d\" y=\"%d\">%s</text>\n", group[name], x[name] - half, top_of(name), 2 * half, tall, x[name], top_of(name) + 18, name
    }
    print "</svg>"
}

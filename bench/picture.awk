# Draws the growth of costs as SVG: a row of panels for each call, a column for each size that varies, both axes logarithmic.
# Input: call, what varies, its value, microseconds of replay, of the oracle.

BEGIN {
    calls = split("O Q L P", call, " ")
    sizes = split("L D chain", size, " ")
    name["O"] = "opening"; name["Q"] = "read as of"; name["L"] = "list of changes"; name["P"] = "page store"
    title["L"] = "log blocks L"; title["D"] = "pages D"; title["chain"] = "versions of the record"
    fixed["L"] = "D = 64, 15 versions a record"; fixed["D"] = "L = 32, 15 versions a record"; fixed["chain"] = "L = 32, D = 64"
    colour["replay"] = "#1f5fbf"; colour["oracle"] = "#c8641e"
    left = 92; top = 96; wide = 250; high = 150; gap_x = 54; gap_y = 62
}

$1 != "M" {
    key = $1 " " $2
    points[key]++
    x[key, points[key]] = $3
    # A difference of two times may come out at nothing; the axis is logarithmic.
    y["replay", key, points[key]] = ($4 < 0.01) ? 0.01 : $4
    y["oracle", key, points[key]] = ($5 < 0.01) ? 0.01 : $5
    for (f = 4; f <= 5; f++) {
        v = ($f < 0.01) ? 0.01 : $f
        if (!($1 in least) || v < least[$1]) least[$1] = v
        if (!($1 in most) || v > most[$1]) most[$1] = v
    }
}

# Of 0.01, 0.02, 0.05, 0.1 .. the greatest not above v, or the least not below it.
function nice(v, up,    step, i, before) {
    before = step = 0.01
    for (i = 1; step < v * 0.9999; i++) {
        before = step
        step = 0.01 * 10 ^ int(i / 3) * substr("125", 1 + i % 3, 1)
    }
    return (up || step <= v * 1.0001) ? step : before
}

function text(px, py, anchor, words, style) {
    printf "<text x=\"%.1f\" y=\"%.1f\" text-anchor=\"%s\"%s>%s</text>\n", px, py, anchor, style, words
}

function line(x1, y1, x2, y2, stroke) {
    printf "<line x1=\"%.1f\" y1=\"%.1f\" x2=\"%.1f\" y2=\"%.1f\" stroke=\"%s\"/>\n", x1, y1, x2, y2, stroke
}

function at_x(v) { return px0 + wide * (log(v) - log(x[key, 1])) / (log(x[key, points[key]]) - log(x[key, 1])) }
function at_y(v) { return py0 + high - high * (log(v) - log(low)) / (log(top_value) - log(low)) }

# A round mark for replay, a square one for the oracle.
function mark(who, mx, my) {
    if (who == "replay") printf "<circle cx=\"%.1f\" cy=\"%.1f\" r=\"4\" fill=\"%s\"/>\n", mx, my, colour[who]
    else printf "<rect x=\"%.1f\" y=\"%.1f\" width=\"8\" height=\"8\" fill=\"none\" stroke=\"%s\" stroke-width=\"2\"/>\n", mx - 4, my - 4, colour[who]
}

function series(who,    i, path) {
    path = ""
    for (i = 1; i <= points[key]; i++) path = path sprintf("%.1f,%.1f ", at_x(x[key, i]), at_y(y[who, key, i]))
    printf "<polyline points=\"%s\" fill=\"none\" stroke=\"%s\" stroke-width=\"2\"%s/>\n", path, colour[who],
        (who == "oracle") ? " stroke-dasharray=\"6 4\"" : ""
    for (i = 1; i <= points[key]; i++) mark(who, at_x(x[key, i]), at_y(y[who, key, i]))
}

function panel(row, column,    c, s, i, v, decade, many) {
    c = call[row]; s = size[column]; key = c " " s
    px0 = left + (column - 1) * (wide + gap_x); py0 = top + (row - 1) * (high + gap_y)
    low = nice(least[c], 0); top_value = nice(most[c], 1)
    many = top_value / low > 999
    for (decade = 0.01; decade <= top_value * 1.001; decade *= 10)
        for (i = 1; i <= 3; i++) {
            v = decade * substr("125", i, 1)
            if (v < low * 0.999 || v > top_value * 1.001 || (many && i > 1)) continue
            line(px0, at_y(v), px0 + wide, at_y(v), "#dddddd")
            text(px0 - 7, at_y(v) + 4, "end", sprintf("%g", v), "")
        }
    for (i = 1; i <= points[key]; i++) {
        line(at_x(x[key, i]), py0 + high, at_x(x[key, i]), py0 + high + 4, "#444444")
        text(at_x(x[key, i]), py0 + high + 17, "middle", x[key, i], "")
    }
    printf "<rect x=\"%d\" y=\"%d\" width=\"%d\" height=\"%d\" fill=\"none\" stroke=\"#444444\"/>\n", px0, py0, wide, high
    text(px0 + wide / 2, py0 + high + 34, "middle", title[s], "")
    series("oracle")
    series("replay")
    if (column == 1)
        printf "<text transform=\"translate(%d,%d) rotate(-90)\" text-anchor=\"middle\" font-weight=\"bold\">%s, µs</text>\n",
            left - 58, py0 + high / 2, name[c]
}

END {
    width = left + sizes * wide + (sizes - 1) * gap_x + 24
    height = top + calls * (high + gap_y)
    printf "<svg xmlns=\"http://www.w3.org/2000/svg\" width=\"%d\" height=\"%d\" viewBox=\"0 0 %d %d\" font-family=\"sans-serif\" font-size=\"12\" fill=\"#222222\">\n", width, height, width, height
    printf "<rect width=\"%d\" height=\"%d\" fill=\"#ffffff\"/>\n", width, height
    text(left, 28, "start", "Microseconds a call, by the size of the store", " font-size=\"17\" font-weight=\"bold\"")
    line(left, 52, left + 34, 52, colour["replay"]); mark("replay", left + 17, 52); text(left + 42, 56, "start", "replay, proved", "")
    line(left + 160, 52, left + 194, 52, colour["oracle"]); mark("oracle", left + 177, 52); text(left + 202, 56, "start", "oracle, plain Rust", "")
    text(left + 350, 56, "start", "both axes logarithmic; a line's reading and printing is part of the call", "")
    for (column = 1; column <= sizes; column++)
        text(left + (column - 1) * (wide + gap_x) + wide / 2, top - 10, "middle", fixed[size[column]], " fill=\"#666666\"")
    for (row = 1; row <= calls; row++)
        for (column = 1; column <= sizes; column++) panel(row, column)
    print "</svg>"
}

# The drawing of a yard, in SVG, for the picture and for the page: functions alone. The caller sets
#   berths, parent[], cars[], targets[], depth[]   the yard, berths from 0
#   planned            1 if there is a plan: crossings and moved cars are drawn
#   up[], down[]       how often the track of a berth is crossed towards the root and away from it
#   moved[]            how many of the cars of a berth take part in a push; these are its last
#   so_far             1 if the counts at the tracks are to have room for 'so far/in all'
# calls arrange() once, and then draw(). All numbers are whole: the picture is the same on every
# machine. Strokes are an even number of pixels wide: lines are sharp.
#
# The root stands at the left. The children of a berth stand right of it, in rising number from top
# to bottom, the first in the row of its parent. A berth's box is as tall as its children need, so
# that each track is one straight line from the box of the parent to the box of the child, and no
# track meets another. A large yard is cut into parts, each with so few rows and columns that it can
# be overlooked. A box with a dashed edge stands in another part too.

# What moves, by the accounts alone: a plan crosses the track of a berth as often as its account
# says, away from the root if it is positive. Of the cars of a berth those move that are beyond the
# fewest that it ever holds.
function by_accounts(    b, a, own, out, stays) {
    for (b = 0; b < berths; b++) {
        own = targets[b] - cars[b]
        for (a = b; ; a = parent[a]) { account[a] += own; if (a == parent[a]) break }
    }
    for (b = 0; b < berths; b++) {
        up[b] = down[b] = 0
        if (b == parent[b]) continue
        if (account[b] > 0) { down[b] = account[b]; out[parent[b]] += account[b] }
        else if (account[b] < 0) { up[b] = -account[b]; out[b] -= account[b] }
    }
    for (b = 0; b < berths; b++) {
        stays = least(depth[b] - (account[b] > 0), least(cars[b], cars[b] + (account[b] > 0 ? account[b] : 0) - out[b]))
        moved[b] = cars[b] - (stays > 0 ? stays : 0)
        pushes += up[b] + down[b]
    }
}
function least(a, b) { return a < b ? a : b }
function most_of(a, b) { return a > b ? a : b }

# Gives each berth its part, row and column, and each part its place. Without recursion, as a line
# of berths would nest as deep as it is long.
function arrange(    b, widest, deepest, digits) {
    box_height = 24; row_gap = 12; place = 12; pitch = 15; in_line = 4
    margin = 16; number_width = 32; page_width = 1200; between = 40
    digits = 1
    widest = deepest = 0
    for (b = 0; b < berths; b++) {
        widest = most_of(widest, box_width(b))
        deepest = most_of(deepest, depth[b])
        digits = most_of(digits, most_of(length(up[b] ""), length(down[b] "")))
        if (b == parent[b]) root = b
        else child[parent[b], children[parent[b]]++] = b
    }
    if (deepest > in_line) box_height = 2 * pitch + 6
    row_height = box_height + row_gap
    count_width = 7 * (so_far ? 2 * digits + 1 : digits) + 6
    track_length = most_of(44, count_width + 28)
    column_width = widest + track_length
    by_level()
    most_rows = 20
    most_columns = most_of(3, int((page_width - 2 * margin + track_length) / column_width))
    cut_parts()
    place_parts()
    # Parts side by side, if one below another they are far taller than wide; on a page, which is to
    # be readable on paper, they stay as they are.
    if (bottom > 2 * page_width && !so_far) { page_width *= 2; place_parts() }
}
function box_width(b) { return number_width + pitch * least(depth[b], in_line) + 3 }

# The berths, each after its parent.
function by_level(    i, k) {
    in_order[0] = root
    listed_berths = 1
    for (i = 0; i < listed_berths; i++) for (k = 0; k < children[in_order[i]] + 0; k++) in_order[listed_berths++] = child[in_order[i], k]
}

# Cuts off the subtrees that would make a part too tall or too wide: from the leaves up, of each
# berth the tallest first. A berth with more children than a part has rows begins a part of its own,
# which goes on in others.
function cut_parts(    i, k, b, c, tall, largest) {
    for (i = berths - 1; i >= 0; i--) {
        b = in_order[i]
        tall = 0
        columns[b] = 1
        for (k = 0; k < children[b] + 0; k++) {
            c = child[b, k]
            if (columns[c] >= most_columns - 1 && children[c] > 0) cut[c] = 1
            tall += rows_in_parent(c)
        }
        while (tall > most_rows) {
            largest = -1
            for (k = 0; k < children[b]; k++) {
                c = child[b, k]
                if (rows_in_parent(c) > 1 && (largest < 0 || rows[c] > rows[largest])) largest = c
            }
            if (largest < 0) break
            tall -= rows[largest] - 1
            cut[largest] = 1
        }
        for (k = 0; k < children[b] + 0; k++) columns[b] = most_of(columns[b], 1 + ((child[b, k] in cut) ? 1 : columns[child[b, k]]))
        rows[b] = most_of(1, tall)
        if (tall > most_rows && b != root) cut[b] = 1
    }
}
function rows_in_parent(c) { return (c in cut) ? 1 : rows[c] }

# Numbers the parts in the order in which their berths are met, and lays out each.
function place_parts(    stack, waiting, b, k, p, y, lane, lanes, span, best, highest, filled) {
    for (b in part) delete part[b]
    for (b in last_row) delete last_row[b]
    parts = 0
    waiting = 0
    stack[waiting++] = root
    while (waiting > 0) {
        b = stack[--waiting]
        if (b == root || (b in cut)) lay_out(b)
        for (k = children[b] - 1; k >= 0; k--) stack[waiting++] = child[b, k]
    }
    caption = parts > 1 ? 42 : 0
    # Each part where it comes highest, and of such places at the leftmost.
    lane = 75
    lanes = int((page_width - 2 * margin + between) / lane)
    right = bottom = 0
    for (p = 1; p <= parts; p++) {
        span = least(lanes, int((part_width(p) + between + lane - 1) / lane))
        best = -1
        for (k = 0; k + span <= lanes; k++) {
            y = 0
            for (b = k; b < k + span; b++) y = most_of(y, filled[b])
            if (best < 0 || y < highest) { best = k; highest = y }
        }
        part_x[p] = margin + best * lane
        part_y[p] = highest
        y = highest + caption + part_rows[p] * row_height + 16
        for (b = best; b < best + span; b++) filled[b] = y
        right = most_of(right, part_x[p] + part_width(p))
        bottom = most_of(bottom, y)
    }
}
function part_width(p) { return most_of(part_right[p], parts > 1 ? 150 : 0) }
function new_part(b) {
    parts++
    part_root[parts] = b
    part_rows[parts] = 1
    part_right[parts] = box_width(b)
    if (!(b in part)) part[b] = parts
}
# A part from the berth that begins it. Each berth in it takes the row of its parent if it is the
# first child, else the next free row.
function lay_out(top,    stack, waiting, b, k, c, free, below) {
    new_part(top)
    row[top] = column[top] = 0
    free = 0
    waiting = 0
    for (k = children[top] - 1; k >= 0; k--) stack[waiting++] = child[top, k]
    while (waiting > 0) {
        b = stack[--waiting]
        below = parent[b]
        if (below == top && free > 0 && free + rows_in_parent(b) > most_rows) { new_part(top); free = 0 }
        at_part[b] = parts
        at_column[b] = column[below] + 1
        if (b == child[below, 0] || (below == top && free == 0)) {
            at_row[b] = below == top ? 0 : row[below]
            free = most_of(free, at_row[b] + 1)
        }
        else at_row[b] = free++
        last_row[parts, below] = at_row[b]
        part_rows[parts] = most_of(part_rows[parts], at_row[b] + 1)
        part_right[parts] = most_of(part_right[parts], at_column[b] * column_width + ((b in cut) ? 84 : box_width(b)))
        if (b in cut) continue
        part[b] = parts
        row[b] = at_row[b]
        column[b] = at_column[b]
        for (k = children[b] - 1; k >= 0; k--) stack[waiting++] = child[b, k]
    }
}
function x_of(p, c) { return part_x[p] + c * column_width }
function y_of(p, r) { return top_of_parts + part_y[p] + caption + r * row_height + box_height / 2 }

# The whole drawing below the legend; top is where it begins.
function draw(top,    p, b, i) {
    top_of_parts = top
    for (p = 1; p <= parts; p++) if (parts > 1) part_caption(p)
    for (i = 0; i < berths; i++) if (in_order[i] != root) track(in_order[i])
    for (p = 1; p <= parts; p++) if (part[part_root[p]] != p) again(part_root[p], p)
    for (i = 0; i < berths; i++) if (in_order[i] in cut) elsewhere(in_order[i])
    for (b = 0; b < berths; b++) berth(b)
}
function part_caption(p,    b, y) {
    b = part_root[p]
    y = top_of_parts + part_y[p] + 12
    printf "<text class=\"part\" x=\"%d\" y=\"%d\">Part %d: berth %d</text>", part_x[p], y, p, b
    printf "<text class=\"note\" x=\"%d\" y=\"%d\">%s</text>\n", part_x[p], y + 16,
            part[b] != p ? "continued from part " part[b] : \
            b == root ? "the root" : "child of " parent[b] " in part " at_part[b]
}

# The track of a berth, from the right edge of its parent's box to the left edge of its own: a rail,
# and for each way in which it is crossed an arrow with the number of crossings.
function track(b,    p, y, from, to) {
    p = at_part[b]
    y = y_of(p, at_row[b])
    from = x_of(p, at_column[b] - 1) + box_width(parent[b])
    to = x_of(p, at_column[b])
    printf "<g class=\"track\" id=\"track%d\"><title>Track %d joins berth %d to its parent, berth %d%s.</title>",
            b, b, b, parent[b], track_words(b)
    printf "<path class=\"%s\" d=\"M%d %dH%d\"/>", (up[b] > 0 && down[b] > 0 ? "rail spare" : "rail"), from, y, to
    if (down[b] > 0) arrow("down", from, to, y, down[b])
    if (up[b] > 0) arrow("up", from, to, y, up[b])
    print "</g>"
}
function track_words(b) {
    if (!planned) return ""
    if (up[b] + down[b] == 0) return ": no push crosses it"
    return ": it is crossed " (up[b] > 0 ? times(up[b]) " towards the root" : "") \
            (up[b] > 0 && down[b] > 0 ? " and " : "") \
            (down[b] > 0 ? times(down[b]) " away from it" : "")
}
function times(k) { return k == 1 ? "once" : k " times" }
# Away from the root above the rail, towards it below.
function arrow(way, from, to, y, count,    middle, at) {
    at = way == "down" ? y - 7 : y + 7
    middle = int((from + to) / 2) + (way == "down" ? -4 : 4)
    if (way == "down") printf "<path class=\"down\" d=\"M%d %dH%d\"/><path class=\"downhead\" d=\"M%d %dv10l8 -5z\"/>",
            from + 4, at, to - 10, to - 11, at - 5
    else printf "<path class=\"up\" d=\"M%d %dH%d\"/><path class=\"uphead\" d=\"M%d %dv10l-8 -5z\"/>",
            to - 4, at, from + 10, from + 11, at - 5
    printf "<rect class=\"under\" x=\"%d\" y=\"%d\" width=\"%d\" height=\"10\"/>", middle - int(count_width / 2), at - 5, count_width
    printf "<text class=\"%stimes\" x=\"%d\" y=\"%d\">%s</text>", way, middle, at + 4, count
}

function berth(b,    p, x, y, i) {
    p = part[b]
    x = x_of(p, column[b])
    y = y_of(p, row[b])
    printf "<g class=\"berth\" id=\"berth%d\"><title>Berth %d%s has room for %s: %s there, and %s to stand there in the end.</title>",
            b, b, b == root ? ", the root," : "",
            counted(depth[b], "car", "cars"), stands(cars[b], "stands", "stand"), stands(targets[b], "is", "are")
    box("box", x, y, box_width(b), bottom_of(p, b, y), b)
    for (i = 0; i < depth[b]; i++)
        mark(place_x(x, i), place_y(y, i, depth[b]),
            i < cars[b] ? (i < cars[b] - moved[b] ? "car" : "moving") : "free", i < targets[b])
    print "</g>"
}
function bottom_of(p, b, y) {
    if ((p, b) in last_row) return y_of(p, last_row[p, b])
    return y
}
# The box of a berth whose cars are drawn in another part.
function again(b, p,    y) {
    y = y_of(p, 0)
    box("elsewhere", x_of(p, 0), y, box_width(b), bottom_of(p, b, y), b)
    print ""
}
function elsewhere(b,    x, y) {
    x = x_of(at_part[b], at_column[b])
    y = y_of(at_part[b], at_row[b])
    box("elsewhere", x, y, 32, y, b)
    printf "<text class=\"note\" x=\"%d\" y=\"%d\">part %d</text>\n", x + 36, y + 4, part[b]
}
function box(class, x, y, width, y_end, number) {
    printf "<rect class=\"%s\" x=\"%d\" y=\"%d\" width=\"%d\" height=\"%d\" rx=\"5\"/>",
        class, x, y - box_height / 2, width, y_end - y + box_height
    printf "<text class=\"number\" x=\"%d\" y=\"%d\">%d</text>", x + 16, y + 4, number
}
function place_x(x, i) { return x + number_width + (i % in_line) * pitch }
function place_y(y, i, deep) { return y - place / 2 + (deep > in_line ? (i < in_line ? -8 : 8) : 0) }
# One place of a berth: empty, with a car that stays, or with one that moves; with a ring if it is a
# target.
function mark(x, y, kind, target) {
    printf "<rect class=\"%s\" x=\"%d\" y=\"%d\" width=\"%d\" height=\"%d\"/>", kind, x, y, place, place
    if (target) printf "<circle class=\"%s\" cx=\"%d\" cy=\"%d\" r=\"3\"/>", kind == "car" ? "on" : "ring", x + place / 2, y + place / 2
}

# The head, which a page has of its own, and the legend, with all that is drawn; gives the height
# that they take.
function legend(said,    y, tall) {
    if (!so_far) printf "<text class=\"head\" x=\"%d\" y=\"28\">%s</text>\n", margin, said
    y = legend_top()
    tall = box_height
    box_height = 24
    box("box", margin, y, 50, y, 7)
    mark(place_x(margin, 0), y - place / 2, "free", 0)
    words(76, y, "berth 7 and its place for a car; the root is at the left, children stand right of their parent")
    y += 26
    key(margin, y, "car", 0, planned ? "car that stays" : "car")
    if (planned) key(196, y, "moving", 0, "car that the plan moves")
    key(396, y, "car", 1, planned ? "car that stays, on a target" : "car on a target")
    if (planned) key(606, y, "moving", 1, "car on a target, and yet moved")
    y += 26
    key(margin, y, "free", 0, "empty place")
    key(196, y, "free", 1, "target without a car")
    y += 26
    printf "<path class=\"rail\" d=\"M%d %dH%d\"/>", margin, y, margin + 60
    words(margin + 68, y, planned ? "track that no push crosses" : "track")
    if (planned) {
        printf "<path class=\"rail\" d=\"M286 %dH366\"/>", y
        arrow("down", 286, 366, y, so_far ? "2/3" : 3)
        words(374, y, so_far ? "crossed away from the root, 2 of 3 times" : "crossed 3 times away from the root")
        printf "<path class=\"rail\" d=\"M606 %dH686\"/>", y
        arrow("up", 606, 686, y, so_far ? "2/3" : 3)
        words(694, y, so_far ? "crossed towards the root, 2 of 3 times" : "crossed 3 times towards the root")
    }
    if (so_far) {
        y += 26
        printf "<g class=\"berth left\">"
        box("box", margin, y, 32, y, 5)
        printf "</g><g class=\"track current\"><path class=\"rail\" d=\"M%d %dH%d\"/></g><g class=\"berth entered\">",
                margin + 32, y, margin + 72
        box("box", margin + 72, y, 32, y, 6)
        print "</g>"
        words(margin + 112, y, "the push that is shown: a car went from berth 5 to berth 6")
    }
    if (any_spare()) {
        y += 26
        printf "<path class=\"rail spare\" d=\"M%d %dH%d\"/>", margin, y, margin + 60
        words(margin + 68, y, "track crossed both ways: some of its crossings are spare")
    }
    if (parts > 1) {
        y += 26
        box("elsewhere", margin, y, 32, y, 9)
        words(60, y, "berth 9, whose cars are drawn in another part")
    }
    box_height = tall
    printf "<rect width=\"%d\" height=\"1\" y=\"%d\" fill=\"#ccc\"/>\n", picture_width(), y + 24
    return y + 44
}
function legend_top() { return so_far ? 24 : 52 }
function legend_height() { return legend_top() + 26 * (3 + so_far + any_spare() + (parts > 1)) + 44 }
function any_spare(    b) {
    for (b = 0; b < berths; b++) if (up[b] > 0 && down[b] > 0) return 1
    return 0
}
function key(x, y, kind, target, text) {
    mark(x, y - place / 2, kind, target)
    words(x + 20, y, text)
}
function words(x, y, text) { printf "<text x=\"%d\" y=\"%d\">%s</text>\n", x, y + 4, text }
function picture_width() { return most_of(920, right + margin) }

function style() {
    print "text { font-family: sans-serif; font-size: 12px; fill: #222 }"
    print ".head { font-size: 16px; font-weight: bold }"
    print ".part { font-weight: bold; fill: #555 }"
    print ".number { text-anchor: middle; font-weight: bold }"
    print ".note { font-size: 11px; fill: #666 }"
    print ".box { fill: #f7f4ee; stroke: #222; stroke-width: 2 }"
    print ".elsewhere { fill: #fff; stroke: #666; stroke-width: 2; stroke-dasharray: 4 4 }"
    print ".free { fill: #fff; stroke: #999; stroke-width: 2 }"
    print ".car { fill: #222; stroke: #222; stroke-width: 2 }"
    print ".moving { fill: #f2c230; stroke: #222; stroke-width: 2 }"
    print ".ring { fill: none; stroke: #222; stroke-width: 2 }"
    print ".on { fill: none; stroke: #fff; stroke-width: 2 }"
    print ".rail { fill: none; stroke: #999; stroke-width: 2 }"
    print ".spare { stroke: #c00; stroke-width: 4; stroke-dasharray: 4 4 }"
    print ".down { fill: none; stroke: #d9691e; stroke-width: 4 }"
    print ".up { fill: none; stroke: #2b6cb0; stroke-width: 4 }"
    print ".downhead { fill: #d9691e }"
    print ".uphead { fill: #2b6cb0 }"
    print ".under { fill: #fff }"
    print ".downtimes { font-size: 11px; font-weight: bold; text-anchor: middle; fill: #a33b00 }"
    print ".uptimes { font-size: 11px; font-weight: bold; text-anchor: middle; fill: #1a4f8a }"
}

# A picture as it stands in a file of its own, or in a page.
function picture(said,    height) {
    so_far += 0
    height = legend_height() + bottom + 8
    printf "<svg xmlns=\"http://www.w3.org/2000/svg\" width=\"%d\" height=\"%d\" viewBox=\"0 0 %d %d\">\n",
            picture_width(), height, picture_width(), height
    print "<title>Kiln yard: " said "</title>"
    print "<style>"
    style()
    print "</style>"
    printf "<rect width=\"%d\" height=\"%d\" fill=\"#fff\"/>\n", picture_width(), height
    draw(legend(said))
    print "</svg>"
}
function counted(n, one, many) { return (n == 0 ? "no" : n) " " (n == 1 ? one : many) }
function stands(n, one, many) { return n > 1 ? n " cars " many : (n == 1 ? "1" : "no") " car " one }

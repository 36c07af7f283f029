# Says how the cars stand where a move is refused (10 to 13), or after the last move (14): one
# sentence a line. Reads the yard sheet, then the move sheet. The environment gives the refusal's
# NUMBER and PLACE, moves counted from 0, and OF, ' of my.moves'. Moves and lines are told from 1.

BEGIN {
    most = 20 # berths that are listed in a sentence
    most_lines = 10 # sentences on single berths
    number = ENVIRON["NUMBER"] + 0
    place = ENVIRON["PLACE"] + 0
    of = ENVIRON["OF"]
}
FNR == 1 { file++; next }
file == 1 {
    parent[$1] = $2
    cars[$1] = $3
    targets[$1] = $4
    depth[$1] = $5
    n++
    next
}
/^track up down$/ { exit }
number != 14 && FNR == place + 2 { from = $1 + 0; to = $2 + 0; exit }
{
    moves++
    cars[$1]--
    cars[$2]++
    last[$1] = last[$2] = moves
    text[moves] = $0
}
END {
    if (number == 14) after_last()
    else at_move()
}

function at_move() {
    if (number == 10) {
        wrong = from < n ? to : from
        right = from < n ? from : to
        print wrong " is no berth: the berths of this yard are " (n == 1 ? "0 alone" : "0 to " n - 1)
        if (right < n) print "at that time berth " right " " holds(right)
    } else if (number == 11 && from == to) {
        print "a push takes a car to another berth; berth " from " " holds(from)
        print "a car can go from berth " from " to " neighbours(from)
    } else {
        print "at that time berth " from " " holds(from) ", and berth " to " " holds(to)
        if (number == 11) print "a car can go from berth " from " to " neighbours(from)
        if (number == 12) print "berth " from " " (from in last ? "was emptied by " move(last[from]) : "is empty from the start")
        if (number == 13) print "berth " to " " (to in last ? "was filled by " move(last[to]) : "is full from the start")
    }
    print "the cars then stand so: " all_cars()
}
function holds(b) { return "holds " (cars[b] == 0 ? "no car" : cars[b] == 1 ? "1 car" : cars[b] " cars") " (room for " depth[b] ")" }
function move(m) { return "move " m " (line " m + 1 of "), '" text[m] "'" }
function neighbours(b,    c, out, count) {
    count = 0
    out = ""
    for (c = 0; c < n; c++) if (c != b && (parent[c] == b || parent[b] == c)) out = add(out, c, ++count)
    return count == 0 ? "no other, as there is none" : out (count > most ? " and others" : "")
}
function all_cars(    b, out, count) {
    count = 0
    out = ""
    for (b = 0; b < n; b++) if (cars[b] > 0) out = add(out, b (cars[b] > 1 ? " (" cars[b] " cars)" : ""), ++count)
    if (count == 0) return "there is none"
    return (count == 1 ? "in berth " : "in berths ") out (count > most ? " and " count - most " others" : "")
}
function add(out, more, count) { return count > most ? out : out == "" ? more : out ", " more }

function after_last(    b, count) {
    print moves == 0 ? "there is no move: the cars stay where they are" : "the last move is " move(moves)
    count = 0
    for (b = 0; b < n; b++) if (cars[b] != targets[b] && ++count <= most_lines)
        print "berth " b " then holds " cars[b] + 0 (cars[b] == 1 ? " car" : " cars") ", and " \
            targets[b] (targets[b] == 1 ? " is" : " are") " to stand there (room for " depth[b] ")"
    if (count > most_lines) print count - most_lines " berths more do not hold as many as are to stand there"
}

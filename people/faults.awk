# Says what exactly is wrong with a refused sheet, one sentence a line, and which further lines of
# it are faulty. Used with mend.awk. The environment gives:
#   KIND     yard or moves
#   NUMBER   the refusal's number, and BERTH the berth or LINE the line that it names, from line 1
#   WHAT, OF how the sheet is called: 'the sheet', ' of my.yard'
#   UNENDED  1 if the last line has no line feed, CUT 1 if the sheet goes on after it
#   MEND     the command that mends the sheet

BEGIN {
    most = 10 # further faulty lines that are told
    for (i = 1; i < 256; i++) code[sprintf("%c", i)] = i
    yard = ENVIRON["KIND"] == "yard"
    number = ENVIRON["NUMBER"] + 0
    line = ENVIRON["LINE"] + 0
    berth = ENVIRON["BERTH"] + 0
    what = ENVIRON["WHAT"]
    of = ENVIRON["OF"]
    unended = ENVIRON["UNENDED"] + 0
    wanted = yard ? 5 : 2
    head = yard ? "berth parent car target depth" : "from to"
    values = yard ? "a berth's line has 5 (berth, parent, car, target, depth)" : "a move has 2 (from, to)"
    named["\302\240"] = "a no-break space, which looks like a space"
    named["\342\200\257"] = "a narrow no-break space, which looks like a space"
    named["\342\200\211"] = "a thin space, which looks like a space"
    named["\342\200\213"] = "a space without width, which is not seen"
    named["\342\200\223"] = "a dash, which is no digit"
    named["\342\210\222"] = "a minus sign: no value is below 0"
    named["\357\273\277"] = "a byte order mark, which is not seen"
}
{
    raw[NR] = $0
    mended[NR] = mend($0, NR == 1)
    # In a line of words commas and spaces are no fault.
    if (mended[NR] ~ /[A-Za-z][A-Za-z]/ && tolower(mended[NR]) !~ /^(berth|from|track)/) forget("comma semicolon tab space")
    mended_kinds[NR] = kinds
}
END {
    lines = NR
    if (ENVIRON["CUT"] + 0 && lines > 1) lines-- # the last line may be cut
    if (lines == 0) { print what " is empty"; exit }
    first = 2 # the first line after the header
    if (number == 15 && strange()) {
        print "it is no " (yard ? "yard" : "move") " sheet: line 1" of " is " quoted(raw[1]) ", and no line begins with a number"
        exit
    }
    exact()
    words = mended_words(unended)
    if (words != "") print what " has " words ": " \
            (words ~ /^no line feed/ ? "press Enter there and save the sheet" : \
            "save it as plain text with line ends 'LF' and one space between the values") ", or run: " ENVIRON["MEND"]
    if (first > 0) further()
}

# Counts no line of these kinds for the last line.
function forget(what,    word, i) {
    split(what, word, " ")
    for (i = 1; i in word; i++) if (sub(" " word[i], "", kinds)) lines_with[word[i]]--
}

# What is wrong at the place that the refusal names.
function exact() {
    if (number == 15) header()
    else if (number == 16 && !yard && looks_like_report(line))
        print whole(line) "no move follows it, so it looks like the crossing report. " \
            "The report's first line is 'track up down', and it may be left out"
    else if (number == 16) print whole(line) line_faults(line)
    else if (number == 17) numbering()
    else if (number == 1) {
        first = 0
        if (line == 2) print what " ends after its header"
        else print whole(line) "it would be berth 256 or more"
    } else {
        read_yard()
        if (number == 26) print at(berth) " has depth " depth[berth]
        else if (number == 27) print at(berth) " has " above(berth)
        else if (number == 4) print at(berth) " has parent " parent[berth] ": " all_berths()
        else if (number == 5) roots()
        else if (number == 6) circle(berth)
        else if (number == 7) totals()
    }
}
function whole(l) { return "line " l of " is " quoted(raw[l]) ": " }

# Whether nothing in the file is like a sheet.
function strange(    l) {
    if (mended[1] ~ /^(berth|from|refusal|track|moves)/ || tolower(mended[1]) == head) return 0
    for (l = 1; l <= lines; l++) if (mended[l] ~ /^[0-9]/ || mended[l] == head) return 0
    return 1
}

# The first line is not the header.
function header(    h, l, i, ours, theirs, count) {
    h = mended[1]
    if (h == head && unended && lines == 1) print "line 1" of ", the last, has no line feed at its end"
    else if (h == head) print whole(1) line_faults(1)
    else if (h == "refusal place") {
        first = 0
        print "this is what movesheet prints for a refused yard sheet, and has no moves: mend the yard sheet first"
    }
    else if (yard && (h == "from to" || h == "track up down")) {
        first = 0
        print "this is what movesheet prints: hand in the yard sheet that it was made from"
    }
    else if (!yard && (h ~ /^berth/ || five(h))) { first = 0; print "this is a yard sheet: hand in the move sheet after it" }
    else if (h ~ /^[0-9]/ && length(h) < 100) {
        first = 1
        print "the header is missing: line 1" of ", " quoted(raw[1]) ", is " \
            (yard ? "a berth's line" : "a move") " already. Write the line '" head "' above it"
    } else if (yard && h == "berth parent car target") {
        first = 0
        print "the header has no 'depth', and each line needs a fifth value, the depth: " \
            "how many cars the berth has room for, 1 for a berth with no siding. " \
            "If no berth has a siding, write a 1 at the end of each line, or run: " \
            "sed -e '1s/$/ depth/' -e '1!s/$/ 1/' your.yard >mended.yard"
    } else {
        for (l = 2; l <= lines && mended[l] != head; l++);
        if (l <= lines) {
            first = l + 1
            print "the header stands in line " l of ", and " \
                (l == 2 ? "line 1, " quoted(raw[1]) ", stands" : l - 1 " lines stand") " above it: nothing may"
            return
        }
        count = split(h, theirs, " ")
        split(head, ours, " ")
        for (i = 1; i <= wanted && theirs[i] == ours[i]; i++);
        if (tolower(h) == head) print whole(1) "the header is written in small letters"
        else if (count > wanted && i > wanted) print whole(1) "the header has " wanted " words, and no other follows"
        else if (count < i) print whole(1) "the word '" ours[i] "' is missing"
        else print whole(1) "word " i " is " quoted(theirs[i]) " and must be '" ours[i] "'"
    }
}
function five(text) { return text ~ /^[0-9]+ [0-9]+ [0-9]+ [0-9]+ [0-9]+$/ }
function two(text) { return text ~ /^[0-9]+ [0-9]+$/ }

# A line in good shape, of another berth than the next.
function numbering(    found, due, l, text) {
    found = mended[line]
    sub(/ .*/, "", found)
    due = line - 2
    text = whole(line) "it is that of berth " found ", and berth " due " is due. "
    for (l = 2; l <= lines && mended[l] !~ ("^" due " "); l++);
    if (l < line) print text "Berth " due " stands in line " l of " too"
    else if (l <= lines) print text "The line of berth " due " stands further down, as line " l of
    else if (found + 0 < due) print text "Berth " found " stands in line " found + 2 of " already"
    else print text "The line of berth " due " is missing, or the number is wrong"
}

# What is wrong with a line, or "" if nothing is: with its values, then what mending would take out.
function line_faults(l,    text, word, found, i) {
    text = good(mended[l]) || mended[l] == head ? "" : value_faults(raw[l], l == 1)
    split(mended_kinds[l], found, " ")
    for (i = 1; i in found; i++) {
        word = found[i]
        if (word == "empty") return "it is empty: take it out"
        if (word == "mark") text = listed(text, "a byte order mark, which editors do not show, stands at its front")
        if (word == "return") text = listed(text, "it ends in a carriage return")
        if (word == "comma" || word == "semicolon" || word == "tab") text = listed(text, "it has " word "s between its values")
        if (word == "space") text = listed(text, "it has a space too many (character " surplus(raw[l]) ")")
    }
    if (l == NR && unended) text = listed(text, "it is the last and has no line feed at its end")
    return text
}
function surplus(text) {
    if (text ~ /^ /) return 1
    if (match(text, /  /)) return RSTART + 1
    sub(/\r+$/, "", text)
    return length(text)
}
# Whether the values of a mended line are well written, and as many as there must be.
function good(text,    v, i) {
    if (!(yard ? five(text) : two(text))) return 0
    split(text, v, " ")
    for (i = 1; i <= wanted; i++) if (v[i] ~ /^0[0-9]/ || length(v[i]) > 3 || v[i] + 0 > 255) return 0
    return 1
}
function value_faults(text, is_first,    i, c, at_character, word, begun, count, sound, told, before, c_fault) {
    if (length(text) > 400) return "it is " length(text) " characters long, and " values
    if (is_first && substr(text, 1, 3) == "\357\273\277") text = substr(text, 4)
    text = text " "
    told = word = before = ""
    count = sound = at_character = 0
    for (i = 1; i <= length(text); i++) {
        c = substr(text, i, 1)
        if (code[c] < 128 || code[c] > 191) at_character++
        if (c !~ /[ \t,;\r]/) {
            if (word == "") begun = at_character
            word = word c
            before = "value"
            continue
        }
        if (word != "") {
            count++
            c_fault = word_fault(word, begun)
            if (c_fault == "") sound++
            else if (count - sound <= 3) told = listed(told, c_fault)
            word = ""
        }
        if (c ~ /[,;]/) {
            if (before != "value" && text ~ /[0-9A-Za-z]/ && substr(text, i) ~ /[0-9A-Za-z]/)
                told = listed(told, "a value is missing before the " (c == "," ? "comma" : "semicolon") " (character " at_character ")")
            before = c
        }
    }
    if (count == 0) return "it is empty: take it out"
    if (yard && count == 4 && sound == 4 && told == "")
        return "it has 4 values: the fifth, the depth, is missing (1 for a berth with no siding)"
    if (count != wanted) told = listed(told, "it has " (count == 1 ? "1 value" : count " values") ", and " values)
    return told
}
function word_fault(word, begun,    i, c, more) {
    if (word ~ /^[0-9]+$/) {
        if (word ~ /^0[0-9]/) {
            more = word
            sub(/^0+/, "", more)
            return cut_short(word) " has a leading zero: write " (more == "" ? "0" : cut_short(more))
        }
        if (length(word) > 3 || word + 0 > 255) return cut_short(word) " is above 255"
        return ""
    }
    if (word ~ /^-[0-9]+$/) return cut_short(word) " is below 0"
    if (word ~ /^\+[0-9]+$/) return cut_short(word) " has a sign: write the digits alone"
    if (word ~ /^[0-9]+\.[0-9]*$/) return cut_short(word) " has a decimal point: write a whole number"
    if (word ~ /^[A-Za-z]+$/ && length(word) > 1) return quoted(word) " is no number"
    for (i = 1; i <= length(word) && substr(word, i, 1) ~ /[0-9]/; i++);
    begun += i - 1
    c = substr(word, i, 1)
    if (code[c] >= 128) {
        for (i++; i <= length(word) && code[substr(word, i, 1)] > 127 && code[substr(word, i, 1)] < 192; i++) c = c substr(word, i, 1)
        return "character " begun " is " (c in named ? named[c] : quoted(c) ", which is not plain ASCII")
    }
    if (c ~ /[Oo]/) return quoted(c) " (character " begun ") is a letter: the digit is 0"
    if (c ~ /[lI]/) return quoted(c) " (character " begun ") is a letter: the digit is 1"
    if (c ~ /[A-Za-z]/) return quoted(c) " (character " begun ") is a letter"
    if (c == "\"" || c == "'") return "character " begun " is a quotation mark: write the digits alone"
    return quoted(c) " (character " begun ") is no digit"
}
function cut_short(text) { return length(text) > 20 ? substr(text, 1, 20) "..." : text }

# A text in quotation marks, with what a terminal does not show written out.
function quoted(text,    i, c, out) {
    out = ""
    for (i = 1; i <= length(text); i++) {
        if (i > 60) { out = out "..."; break }
        c = substr(text, i, 1)
        if (c == "\t") out = out "\\t"
        else if (c == "\r") out = out "\\r"
        else if (code[c] < 32 || code[c] > 126) out = out sprintf("\\x%02x", code[c])
        else out = out c
    }
    return "'" out "'"
}

# The lists of a yard whose lines are all in good shape and order.
function read_yard(    l, v) {
    for (l = 2; l <= lines; l++) {
        split(mended[l], v, " ")
        parent[l - 2] = v[2] + 0
        car[l - 2] = v[3] + 0
        target[l - 2] = v[4] + 0
        depth[l - 2] = v[5] + 0
    }
    n = lines - 1
}
function at(b) { return "berth " b " (line " b + 2 of ")" }
function all_berths() { return n == 1 ? "the only berth of this sheet is 0" : "the berths of this sheet are 0 to " n - 1 }
function above(b,    text) {
    if (car[b] > depth[b]) text = counted(car[b], "car")
    if (target[b] > depth[b]) text = (text == "" ? "" : text ", ") counted(target[b], "target")
    return text " and room for " depth[b] " (its depth)"
}
function counted(k, word) { return k == 1 ? "1 " word : k " " word "s" }

function roots(    b, text, count, told) {
    for (b = 0; b < n; b++) if (parent[b] == b) {
        count++
        if (count <= most) text = text (text == "" ? "" : ", ") at(b)
    }
    if (count == 0) {
        print "none of the " counted(n, "berth") " names itself: " way(0)
        return
    }
    print (count > most ? count " berths name themselves as parent, the first are " : "these name themselves as parent: ") text
}
# The way up from a berth, until it comes to a berth a second time.
function way(b,    text, seen, steps, ring, path, k) {
    steps = 0
    for (; !(b in seen); b = parent[b]) { seen[b] = steps; path[steps++] = b }
    ring = steps - seen[b]
    path[steps] = b
    text = ring > 24 ? path[seen[b]] " → " path[seen[b] + 1] " → " path[seen[b] + 2] " → ... → " \
        path[steps - 1] " → " b " (" ring " berths)" : ""
    if (text == "") for (k = seen[b]; k <= steps; k++) text = text (text == "" ? "" : " → ") path[k]
    if (seen[b] == 0) return "the circle is " text
    return "from berth " path[0] " the way leads to berth " b ", and from there on the circle is " text
}
function circle(b,    c, d, reaches, more) {
    print way(b)
    # Further circles, each told once.
    for (c = b; !(c in round); c = parent[c]) round[c] = 1
    for (c = b + 1; c < n; c++) {
        if (c in round) continue
        delete_way()
        for (d = c; !(d in round) && !(d in trail) && parent[d] != d; d = parent[d]) trail[d] = 1
        reaches = d in trail ? 0 : 1
        if (!reaches && ++more <= most) print "also: " way(c)
        for (d in trail) round[d] = 1
        round[c] = 1
    }
    if (more > most) print "there are " more - most " circles more"
}
function delete_way(    d) { for (d in trail) delete trail[d] }
function totals(    b, cars, targets) {
    for (b = 0; b < n; b++) { cars += car[b]; targets += target[b] }
    print "there are " counted(cars, "car") " and " counted(targets, "target") ": " \
        (cars > targets ? counted(cars - targets, "target") " too few" : counted(targets - cars, "target") " too many")
}

# The further faulty lines. A number that is not the next is told where the count breaks, once; that
# of a berth that was passed over is not told again.
function further(    l, text, due, v, shaped, count, passed) {
    shaped = 1
    due = 0
    for (l = first; l <= lines; l++) {
        if (!yard && report_from(l)) break
        if (yard && l - first >= 256) break
        text = ""
        if (!good(mended[l])) {
            shaped = 0
            due++
            text = mended[l] == "" && raw[l] !~ /[,;]/ ? "it is empty: take it out" : value_faults(raw[l], l == 1)
            if (mended[l] == "") due--
        } else if (yard) {
            split(mended[l], v, " ")
            if (v[1] + 0 != due) shaped = 0
            if (v[1] in passed) delete passed[v[1]]
            else {
                if (v[1] + 0 != due) text = "it is that of berth " v[1] ", and berth " due " is due"
                for (; due < v[1] + 0; due++) passed[due] = 1
                due = v[1] + 1
            }
            if (v[5] + 0 < 1 || v[5] + 0 > 8) text = listed(text, "its depth is " v[5] ", and must be 1 to 8")
            else {
                if (v[3] + 0 > v[5] + 0) text = listed(text, "it has " counted(v[3], "car") " and room for " v[5])
                if (v[4] + 0 > v[5] + 0) text = listed(text, "it has " counted(v[4], "target") " and room for " v[5])
            }
        }
        fault[l] = text
    }
    if (yard && shaped && number != 5) for (l = first; l <= lines; l++) {
        split(mended[l], v, " ")
        if (v[2] + 0 > lines - first) fault[l] = listed(fault[l], "its parent is " v[2] ", and the berths are 0 to " lines - first)
    }
    # What the first sentences say of their own line is not said again.
    if (number == 16 || number == 17 || number >= 26 || number == 4) delete fault[line]
    count = 0
    for (l = first; l <= lines; l++) if (l in fault && fault[l] != "" && ++count <= most)
        print "also line " l of ", " quoted(raw[l]) ": " fault[l]
    if (count > most) print counted(count - most, "further line") " of " what (count - most == 1 ? " is" : " are") " faulty too"
}

# Whether the crossing report of a move sheet begins at a line: at its own head, or where a line is
# like one of a report and no move follows.
function report_from(l) {
    if (mended[l] == "track up down") return 1
    return looks_like_report(l)
}
function looks_like_report(l,    text, k) {
    text = tolower(mended[l])
    if (last_move == "") for (last_move = lines; last_move > 0 && !two(mended[last_move]); last_move--);
    if (two(text) || last_move > l) return 0
    if (text ~ /^total/ || (text ~ /^[a-z]+ [a-z]+ [a-z]+$/ && text ~ /track|up|down/)) return 1
    if (!three(text)) return 0
    for (k = l + 1; k <= lines; k++) if (three(mended[k]) || mended[k] ~ /^total/) return 1
    return 0
}
function three(text) { return text ~ /^[0-9]+ [0-9]+ [0-9]+$/ }

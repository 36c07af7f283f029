# Makes the man page of the library from its header. Variables: date, release. The header has a
# comment in front of each group: the first tells of the whole, the others of the constants or calls
# below them, up to an empty line.
/^\/\*/ && /\*\/$/ { text = substr($0, 4, length($0) - 6); comment(text); next }
/^\/\*/ { open = 1; begin(); note(substr($0, 4)); next }
open && /\*\/$/ { sub(/^ \* ?/, ""); sub(/ *\*\/$/, ""); note($0); open = 0; next }
open { sub(/^ \* ?/, ""); note($0); next }

/^#define JAVENDRIKY_[A-Z_]+ [0-9]+ +\/\* / && !/^#define JAVENDRIKY_REGISTER/ {
    take("refusals")
    refusal[++refusals] = $2
    number[refusals] = $3
    text = $0
    sub(/^[^*]*\/\* /, "", text)
    sub(/ *\*\/$/, "", text)
    meaning[refusals] = text
    next
}
/^#define JAVENDRIKY_[A-Z]/ {
    take("constant")
    text = $0
    sub(/^#define /, "", text)
    sub(/ *\/\*.*$/, "", text)
    add(text)
    next
}
/^(uint32_t|static inline .*) \**javendriky_/ { take("call"); calling = /^uint32_t/; add($0); called($0); next }
calling && /^ / { add($0) }
/;$/ { calling = 0 }

# A comment begins, and ends: what stands below it is told by it.
function begin() { lines = 0; fresh = 1 }
function comment(text) { begin(); note(text) }
function note(text) { remark[++lines] = text }
function called(text) {
    sub(/\(.*/, "", text)
    sub(/.*[ *]/, "", text)
    calls = calls ", " text
}
# Starts a group of this kind where a comment came before.
function take(kind, i) {
    if (!fresh) return
    fresh = 0
    groups++
    kinds[groups] = kind
    for (i = 1; i <= lines; i++) told[groups, i] = remark[i]
    tolds[groups] = lines
}
function add(text) { shown[groups, ++showns[groups]] = text }

# A comment as paragraphs: lines with more spaces in front stand as they are.
function tell(group, i, text) {
    for (i = 1; i <= tolds[group]; i++) {
        text = told[group, i]
        if (text ~ /^  /) { enter("example"); line(text); continue }
        if (inside == "example") { leave(); print ".PP" }
        if (text == "") { print ".PP"; continue }
        if (text ~ /^(Answers|Refused|Writes)/) print ".PP"
        line(text)
    }
    leave()
}
function show(group, i) {
    print ".PP\n.EX"
    for (i = 1; i <= showns[group]; i++) line(shown[group, i])
    print ".EE"
}

# The first comment stands in front of the header's guard, which ends it.
/^#ifndef JAVENDRIKY_H/ { take("all") }

END {
    print ".nr HY 0" # no name is split
    print ".TH JAVENDRIKY 3 " quoted(date) " " quoted("Javendriky " release) " " quoted("Kiln yards")
    print ".ad l"
    print ".SH NAME"
    print plain("javendriky" calls) " \\- a proved planner for kiln yards"
    print ".SH SYNOPSIS"
    print ".EX"
    line("#include <javendriky.h>")
    line("#include <javendriky_yard.h> /* the same calls with a yard in one argument */")
    print ""
    line("cc program.c $(pkg-config --cflags --libs javendriky)")
    line("cc program.c $(pkg-config --cflags --libs javendriky-static)")
    print ".EE"
    print ".SH DESCRIPTION"
    for (g = 1; g <= groups; g++) if (kinds[g] == "all") tell(g)
    print ".SH CALLS"
    for (g = 1; g <= groups; g++) if (kinds[g] == "call") {
        title = text = told[g, 1]
        sub(/[:,.].*/, "", title)
        if (text ~ /^[A-Z][a-z ]*: /) {
            text = substr(text, length(title) + 3)
            told[g, 1] = toupper(substr(text, 1, 1)) substr(text, 2)
        }
        print ".SS " quoted(title)
        show(g)
        print ".PP"
        tell(g)
    }
    print ".SH REFUSALS"
    for (g = 1; g <= groups; g++) if (kinds[g] == "refusals") tell(g)
    for (i = 1; i <= refusals; i++) {
        print ".TP\n.B " quoted(number[i] "  " refusal[i])
        line(meaning[i])
    }
    print ".SH CONSTANTS"
    for (g = 1; g <= groups; g++) if (kinds[g] == "constant") { show(g); print ".PP"; tell(g) }
    print ".SH A YARD IN ONE ARGUMENT"
    line("javendriky_yard.h has a struct, jv_yard, with n and the four lists, and for each call")
    line("javendriky_x of a yard an inline function jv_x that takes the struct in their place.")
    line("It reads and writes yard sheets from files too, and jv_tell gives an answer as the")
    line("refusal's number, its place and a sentence. Its comments tell the rest.")
    print ".SH SEE ALSO"
    print also
}

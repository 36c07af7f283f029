# Makes the man page of a command from what its --help prints. Variables: name, what (it does, in a
# line), date, release, also (the other pages of section 1, with commas).
BEGIN {
    print ".TH " quoted(toupper(name)) " 1 " quoted(date) " " quoted("Javendriky " release) " " quoted("Kiln yards")
    print ".SH NAME"
    print plain(name) " \\- " plain(what)
    print ".SH SYNOPSIS"
    part = "usage"
}

part == "usage" && /^$/ { print ".SH DESCRIPTION"; part = "text"; next }
part == "usage" {
    sub(/^(usage:)? +/, "")
    print (NR > 1 ? ".br\n" : "") ".B " quoted($0)
    next
}

# The options: '    -h, --help  prints this', perhaps with further lines, each with more spaces in
# front.
/^    -/ {
    leave()
    if (part != "options") print ".SH OPTIONS"
    part = "options"
    text = substr($0, 5)
    two = index(text, "  ")
    print ".TP\n.B " quoted(two ? substr(text, 1, two - 1) : text)
    if (two) {
        text = substr(text, two)
        sub(/^ +/, "", text)
        line(text == "prints this" ? "prints this page in short" : text)
    }
    next
}
part == "options" && /^     +/ { sub(/^ +/, ""); line($0); next }
part == "options" && /[^ ]/ { if (!/^Status: /) print ".SH NOTES"; part = "text" }

/^$/ { if (inside == "example") held++; else gap = 1; next }
/^    / {
    enter("example")
    for (; held; held--) print ""
    gap = 0
    line(substr($0, 5))
    next
}
/^Status: / { leave(); print ".SH EXIT STATUS"; held = gap = 0; sub(/^Status: /, "") }
{
    if (inside == "example") { leave(); held = 0; gap = 1 }
    if (gap) print ".PP"
    gap = 0
    line($0)
}

END {
    leave()
    print ".SH SEE ALSO"
    print also
}

# What the two makers of man pages share: text that stands in a page as it is.

# A text with what roff would take for its own put so that it is printed.
function plain(text) {
    gsub(/\\/, "\\e", text)
    gsub(/-/, "\\-", text)
    gsub(/'/, "\\(aq", text)
    gsub(/`/, "\\(ga", text)
    gsub(/\^/, "\\(ha", text)
    gsub(/~/, "\\(ti", text)
    return text
}

# A line of text; a full stop at its front would be a request.
function line(text) { print (text ~ /^\./ ? "\\&" : "") plain(text) }

# The argument of a macro.
function quoted(text) {
    text = plain(text)
    gsub(/"/, "\\(dq", text)
    return "\"" text "\""
}

# Lines that keep their ends, as an example does. What is open is closed by leave.
function enter(kind) {
    if (inside == kind) return
    leave()
    inside = kind
    if (kind == "example") print ".PP\n.RS 4\n.EX"
}
function leave() {
    if (inside == "example") print ".EE\n.RE"
    inside = ""
}

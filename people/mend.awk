# How a line of a sheet is mended without touching its values. mendsheet prints the mended lines;
# the other commands tell by them what a spreadsheet or an editor left in a sheet.

# Gives the line mended. Takes off a byte order mark (of the first line) and carriage returns at
# the end, puts one space for each comma, semicolon or tab, takes out surplus spaces. A place left
# empty between two commas is a missing value, so such a line keeps its commas.
# Sets kinds, what was mended in this line, and counts the lines of each kind in lines_with.
function mend(line, first,    was) {
    kinds = ""
    if (first && substr(line, 1, 3) == "\357\273\277") { line = substr(line, 4); kind("mark") }
    if (sub(/\r+$/, "", line)) kind("return")
    was = line
    sub(/[ \t]*[,;][ \t,;]*$/, "", line)
    if (line ~ /[,;][ \t]*[,;]/ || line ~ /^[ \t]*[,;]/) return was
    if (was ~ /,/) kind("comma")
    if (was ~ /;/) kind("semicolon")
    if (was ~ /\t/) kind("tab")
    gsub(/[ \t]*[,;][ \t]*/, " ", line)
    gsub(/[ \t]*\t[ \t]*/, " ", line)
    if (line ~ /^ / || line ~ / $/ || line ~ /  /) {
        gsub(/ +/, " ", line)
        sub(/^ /, "", line)
        sub(/ $/, "", line)
        if (line != "" && was !~ /^[ ]*\t|\t[ ]*$/) kind("space")
    }
    if (line == "") kind("empty")
    return line
}
function kind(word) { kinds = kinds " " word; lines_with[word]++ }

# What was mended in the lines so far, and with unended the missing line feed at the end, in words;
# "" if nothing was.
function mended_words(unended,    text) {
    text = ""
    if (lines_with["mark"]) text = listed(text, "a byte order mark at the front, which editors do not show")
    if (lines_with["return"]) text = listed(text, "carriage returns at the end of " counted_lines("return"))
    if (lines_with["comma"]) text = listed(text, "commas in " counted_lines("comma"))
    if (lines_with["semicolon"]) text = listed(text, "semicolons in " counted_lines("semicolon"))
    if (lines_with["tab"]) text = listed(text, "tabs in " counted_lines("tab"))
    if (lines_with["space"]) text = listed(text, "surplus spaces in " counted_lines("space"))
    if (lines_with["empty"]) text = listed(text, lines_with["empty"] == 1 ? "an empty line" : lines_with["empty"] " empty lines")
    if (unended) text = listed(text, "no line feed at the end of the last line")
    return text
}
function listed(text, more) { return text == "" ? more : text "; " more }
function counted_lines(word) { return lines_with[word] == 1 ? "1 line" : lines_with[word] " lines" }

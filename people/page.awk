# Prints a page that shows the pushes of a move sheet one by one (drawing.awk, page.css, page.js).
# Reads the yard sheet, then the move sheet. The environment gives
#   LIMIT     the number of moves to show, those before a refused one; '' for all
#   VERDICT   a file with sentences on the sheet, which stand at the top of the page
#   STATUS    1 if the sheet is refused
#   FOLDER    the folder of page.css and page.js

BEGIN { berths = 0; pushes = 0; limit = ENVIRON["LIMIT"] }
FNR == 1 { file++; next }
file == 1 {
    parent[berths] = $2 + 0
    cars[berths] = fewest[berths] = holds[berths] = $3 + 0
    targets[berths] = $4 + 0
    depth[berths] = $5 + 0
    up[berths] = down[berths] = 0
    standing += $3
    berths++
    next
}
/^track up down$/ { exit }
limit != "" && pushes >= limit + 0 { exit }
{
    from[++pushes] = $1 + 0
    to[pushes] = $2 + 0
    if (--holds[$1 + 0] < fewest[$1 + 0]) fewest[$1 + 0] = holds[$1 + 0]
    holds[$2 + 0]++
    if (parent[$1 + 0] == $2 + 0) up[$1 + 0]++
    else down[$2 + 0]++
}
END {
    planned = so_far = 1
    for (b = 0; b < berths; b++) moved[b] = cars[b] - fewest[b]
    arrange()
    said = counted(berths, "berth", "berths") ", " counted(standing, "car", "cars") ", " counted(pushes, "push", "pushes")
    page()
}

function page(    line, b, i) {
    print "<!DOCTYPE html>"
    print "<html lang=\"en\">"
    print "<head>"
    print "<meta charset=\"utf-8\">"
    print "<meta http-equiv=\"Content-Security-Policy\" " \
        "content=\"default-src 'none'; style-src 'unsafe-inline'; script-src 'unsafe-inline'\">"
    print "<meta name=\"viewport\" content=\"width=device-width\">"
    print "<title>Kiln yard: " said "</title>"
    print "<style>"
    copy("page.css")
    print "</style>"
    print "</head>"
    print "<body>"
    print "<h1>" said "</h1>"
    while ((getline line <ENVIRON["VERDICT"]) > 0)
        print "<p class=\"" (ENVIRON["STATUS"] + 0 ? "refused" : "verdict") "\">" plain(line) "</p>"
    print "<noscript><p class=\"refused\">Without JavaScript this page shows the start alone, and the list of pushes.</p></noscript>"
    print "<nav>"
    print "<button id=\"first\" title=\"Home\">first</button>"
    print "<button id=\"back\" title=\"left arrow\">back</button>"
    print "<button id=\"play\" title=\"space\">play</button>"
    print "<button id=\"forward\" title=\"right arrow\">forward</button>"
    print "<button id=\"last\" title=\"End\">last</button>"
    print "<label>pace <select id=\"pace\"><option value=\"1500\">slow</option>" \
        "<option value=\"700\" selected>walking</option><option value=\"150\">fast</option></select></label>"
    print "<input id=\"slider\" type=\"range\" min=\"0\" max=\"" pushes "\" value=\"0\" aria-label=\"push\">"
    print "</nav>"
    print "<p id=\"state\">" (pushes == 0 ? "There is no push." : "Start: no push of " pushes " yet.") "</p>"
    print "<p id=\"cars\">" standing_words() "</p>"
    print "<main>"
    print "<figure id=\"picture\">"
    picture(said)
    print "</figure>"
    print "<section id=\"list\">"
    print "<h2>Pushes</h2>"
    print "<ol id=\"pushes\" start=\"0\">"
    print "<li id=\"push0\">start"
    for (i = 1; i <= pushes; i++)
        printf "<li id=\"push%d\"%s>%d → %d\n", i, (both_ways(from[i], to[i]) ? " class=\"both\"" : ""), from[i], to[i]
    print "</ol>"
    print "</section>"
    print "</main>"
    crossings()
    print "<script>"
    printf "const parents = [%s]\n", list_of(parent)
    printf "const startCars = [%s]\n", list_of(cars)
    print "</script>"
    print "<script>"
    copy("page.js")
    print "</script>"
    print "</body>"
    print "</html>"
}
function both_ways(a, b,    t) {
    t = parent[a] == b ? a : b
    return up[t] > 0 && down[t] > 0
}
function standing_words(    b, text, count) {
    for (b = 0; b < berths; b++) if (cars[b] > 0) {
        count++
        text = text (count > 1 ? ", " : "") b (cars[b] > 1 ? " (" cars[b] " cars)" : "")
    }
    return count == 0 ? "No car stands in the yard." : "Cars stand in " (count == 1 ? "berth " : "berths ") text "."
}
function crossings(    b, spare) {
    spare = any_spare()
    print "<section id=\"report\">"
    print "<h2>Crossings, so far of all</h2>"
    if (spare) print "<p>A track that is crossed both ways has spare pushes: twice as many as its fewer crossings.</p>"
    print "<table id=\"crossings\">"
    print "<thead><tr><th>track<th>towards the root<th>away from it" (spare ? "<th>spare" : "") "</thead>"
    print "<tbody>"
    for (b = 0; b < berths; b++) if (b != root)
        print "<tr id=\"crossed" b "\"" (up[b] > 0 && down[b] > 0 ? " class=\"both\"" : "") \
            "><th>" b "<td>0 of " up[b] "<td>0 of " down[b] (spare ? "<td>" 2 * least(up[b], down[b]) : "")
    print "</tbody>"
    print "</table>"
    print "</section>"
}
function list_of(array,    b, text) {
    text = array[0] ""
    for (b = 1; b < berths; b++) text = text "," array[b]
    return text
}
function copy(name,    line, file) {
    file = ENVIRON["FOLDER"] "/" name
    while ((getline line <file) > 0) print line
    close(file)
}
function plain(text) {
    gsub(/&/, "\\&amp;", text)
    gsub(/</, "\\&lt;", text)
    gsub(/>/, "\\&gt;", text)
    return text
}

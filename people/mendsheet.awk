# Prints a sheet mended (mend.awk), and into the file TOLD what was mended. RETURNS is 1 if carriage
# returns alone ended lines, UNENDED 1 if the last line has no line feed.
{
    line = mend($0, NR == 1)
    if (line != "") print line
    if (line ~ /[,;]/) left[++gaps] = NR
}
END {
    told = ENVIRON["TOLD"]
    words = mended_words(ENVIRON["UNENDED"] + 0)
    if (ENVIRON["RETURNS"] + 0) words = listed(words, "carriage returns with no line feed after them")
    print (words == "" ? "there was nothing to mend" : "mended: " words) >told
    for (i = 1; i <= gaps && i <= 10; i++)
        print "line " left[i] " stays as it is: a value is missing before one of its commas or semicolons" >told
    if (gaps > 10) print gaps - 10 " lines more stay as they are, for the same reason" >told
}

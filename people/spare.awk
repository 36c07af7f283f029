# Which tracks carry spare pushes, from the output of the check program: a line a sentence, without
# its full stop. A track crossed both ways carries two spare pushes for each crossing of the lesser
# column.
report && NF == 3 {
    lesser = $2 < $3 ? $2 : $3
    if (lesser > 0 && ++tracks <= 10)
        print "track " $1 " is crossed " times($2) " towards the root and " times($3) \
            " away from it: " 2 * lesser " of these pushes are spare"
}
$0 == "track up down" { report = 1 }
END { if (tracks > 10) print tracks - 10 " further track" (tracks > 11 ? "s carry" : " carries") " spare pushes" }
function times(n) { return n == 1 ? "once" : n == 2 ? "twice" : n " times" }

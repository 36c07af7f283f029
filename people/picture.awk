# Prints the picture of a yard sheet (drawing.awk). PLANNED is 1 if there is a plan: the totals of
# cars and targets are equal.
BEGIN { berths = 0 }
/[a-z]/ { next }
{
    parent[berths] = $2 + 0
    cars[berths] = $3 + 0
    targets[berths] = $4 + 0
    depth[berths] = $5 + 0
    standing += $3
    wanted += $4
    berths++
}
END {
    planned = ENVIRON["PLANNED"] + 0
    if (planned) by_accounts()
    arrange()
    said = counted(berths, "berth", "berths") ", " counted(standing, "car", "cars") ", "
    picture(said (planned ? counted(pushes, "push", "pushes") : counted(wanted, "target", "targets") ": no plan"))
}

# The table of commits on a disk, from lines `phase who commits seconds`; in the phase `stores` the last is their number.
BEGIN {
    split("first later without", phases)
    split("update insert striproom alone", players)
    title["first"] = "with sync, new files"
    title["later"] = "with sync, going on"
    title["without"] = "without sync, processor time"
    name["update"] = "SQLite, one update"
    name["insert"] = "SQLite, one version"
    name["striproom"] = "striproom"
    name["alone"] = "one block stored"
    print "| measured | commits | by | seconds | commits a second | stores a commit | ratio | aim |"
    print "|---|---|---|---|---|---|---|---|"
}
{ commits[$1, $2] = $3; amount[$1, $2] = $4 }
function row(phase, who, done, seconds, stores, ratio, aim) {
    done = commits[phase, who]
    seconds = amount[phase, who]
    ratio = sprintf("%.2f", seconds / amount[phase, "update"])
    stores = aim = "-"
    if (phase != "without") {
        stores = who == "alone" ? "1" : sprintf("%.2f", amount["stores", who] / commits["stores", who])
        if (who == "striproom") aim = "0.5"
    }
    if (who == "striproom") ratio = "**" ratio "**"
    printf "| %s | %d | %s | %.3f | %d | ", title[phase], done, name[who], seconds, done / seconds
    print stores " | " ratio " | " aim " |"
}
END {
    for (i = 1; i <= 3; i++)
        for (j = 1; j <= 4; j++)
            if ((phases[i], players[j]) in amount) row(phases[i], players[j])
}

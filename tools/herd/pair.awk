# The overlaps of a pair of groups, by the reports of both: the lines of animals, boxes and overlaps of the first, then of the second,
# and then the files of the pair, of which with files=1 those are printed whose animals are to be run; or what a run of these gave, of
# which the lines of overlaps of all animals are made. No polygon covers a fix outside its box, so animals are run whose boxes meet one
# of the other group, and where none of two animals was run together neither has a fix in the other's range.
BEGIN { FS = "," }
FNR == 1 { part++ }
part < 3 && $1 == "animal" {
    if ($2 in at) exit twice = 1
    name[++animals] = $2
    at[$2] = animals
    of[animals] = part
    fixes[animals] = $4
}
part < 3 && $1 == "box" { west[animals] = $3; south[animals] = $4; east[animals] = $5; north[animals] = $6 }
$1 == "overlap" { count[$2, $3] = $4 }
part == 3 && files && is_met(FNR) { print }
END {
    if (files || twice) exit twice
    for (one = 1; one <= animals; one++)
        for (other = 1; other <= animals; other++)
            if (one != other) print "overlap," name[one] "," name[other] "," count[name[one], name[other]] + 0 "," fixes[one]
    print "end," animals
}

# Whether the box of an animal meets one of the other group.
function is_met(one, other) {
    for (other = 1; other <= animals; other++)
        if (of[other] != of[one] && west[one] + 0 <= east[other] + 0 && west[other] + 0 <= east[one] + 0 &&
            south[one] + 0 <= north[other] + 0 && south[other] + 0 <= north[one] + 0) return 1
    return 0
}

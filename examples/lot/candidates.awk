# The candidate lines of reports as DIE,RANK,PLACE,TFSF,TFSP,TPSF,SITE. A file is named by its die.
# The site of a fault is its text without the last word, which says how the site fails; a bridge has
# its two nets in one order.
BEGIN { OFS = "," }
FNR == 1 { die = FILENAME; sub(/^.*\//, "", die) }
/^candidate / {
    site = $11
    if ($11 == "bridge") site = site " " ($12 "" < $13 "" ? $12 " " $13 : $13 " " $12)
    else for (i = 12; i < NF; i++) site = site " " $i
    print die, $2, $4, $6, $8, $10, site
}

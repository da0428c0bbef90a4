# Writes a page anew with one part of it made again: what stands between `<!-- NAME: .. -->` and `<!-- end of NAME -->`
# becomes the text of the file MADE. awk -v name=NAME -v made=MADE -f tools/fill.awk PAGE
index($0, "<!-- " name ":") == 1 {
    print
    while ((getline line < made) > 0) print line
    within = filled = 1
}

$0 == "<!-- end of " name " -->" { within = 0 }

!within

END {
    if (!filled || within) {
        print "fill.awk: the page has no part called " name > "/dev/stderr"
        exit 1
    }
}

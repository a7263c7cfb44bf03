# The lines of the picture of `explain run=`, from what `rehearse cues` prints: each cue is put by its own tick, in a table.
/^cue=/ { number[++n] = substr($1, 5); tick[n] = $3 }
/^ticks=/ { all = substr($1, 7) + 0 }
END {
    each = int((all + 79) / 80)
    for (i = 1; i <= n; i++) {
        if (!(number[i] in seen)) order[++lines] = number[i]
        seen[number[i]] = 1
        fired[number[i], int(tick[i] / each)]++
    }
    for (j = 1; j <= lines; j++) {
        line = sprintf("%4d |", order[j])
        for (at = 0; at * each < all; at++) {
            times = fired[order[j], at]
            line = line (times > 1 ? "#" : times ? "*" : " ")
        }
        print line "|"
    }
}

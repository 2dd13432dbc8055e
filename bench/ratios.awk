# What a call costs now by what it cost before, of the counts that two runs of 'bench/run.sh ours' printed.
#   awk -f bench/ratios.awk BEFORE AFTER
# A group's ratio is that of its rows added up; its worst row stands beside it. The loop around a call is taken off.
BEGIN { FS = OFS = "\t" }

$1 == "loop" { around = $4; next } # it is the first line of a file
FNR == NR { before[$1 FS $2] = $4 - around; next }

{ row = $1 FS $2 }
!(row in before) { stop("no count before of " $1 ": " $2) }
!($1 in rows) { groups[++count] = $1 }
{
    now = $4 - around
    ratio = now / before[row]
    printf "%s\t%s\t%.2f\t%.2f\t%.4f\n", $1, $2, before[row], now, ratio
    rows[$1]++
    sum_before[$1] += before[row]
    sum_now[$1] += now
    if (ratio > worst[$1]) { worst[$1] = ratio; where[$1] = $2 }
    delete before[row]
}

END {
    if (failed) exit 1
    for (row in before) stop("no count after of " row)
    for (i = 1; i <= count; i++) {
        g = groups[i]
        printf "%s: %d rows, %.4f added up, worst %.4f (%s)\n", g, rows[g], sum_now[g] / sum_before[g], worst[g], where[g]
    }
}

function stop(why) {
    print "ratios: " why > "/dev/stderr"
    failed = 1
    exit 1
}

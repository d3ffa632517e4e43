# A histogram in text of the last counts of a species, from what `surface ensemble` writes.
#
#     ./run surface ensemble --seeds 100 < examples/decay.manifest | awk -v species=Y -f examples/histogram.awk
#
# A line has a range of counts, how many seeds ended there, and a bar. `-v bins=N` sets how many ranges there are at most;
# 10 if it isn't given. Seeds that were cut at the limit stand in no range.
#
# The line of a seed has the word events in its third place; that of a species named seed has a number there.

BEGIN {
    if (bins < 1) bins = 10
    seeds = cut = 0
}

$1 != "seed" || $3 != "events" { next }

$NF == "limit" { cut++; next }

# Fields from the seventh on are <name>:<count>. A name may have colons too, so the count is what stands behind the last.
{
    for (i = 7; i <= NF; i++) {
        pieces = split($i, piece, ":")
        number = piece[pieces]
        if (substr($i, 1, length($i) - length(number) - 1) == species) {
            counts[seeds] = number + 0
            if (seeds == 0 || counts[seeds] < least) least = counts[seeds]
            if (seeds == 0 || counts[seeds] > greatest) greatest = counts[seeds]
            seeds++
        }
    }
}

END {
    width = int((greatest - least) / bins) + 1
    for (i = 0; i < seeds; i++) {
        bin = int((counts[i] - least) / width)
        if (++many[bin] > most) most = many[bin]
    }
    for (from = least; seeds > 0 && from <= greatest; from += width) {
        bin = (from - least) / width
        bar = ""
        while (length(bar) < 50 * many[bin] / most) bar = bar "#"
        printf "%8d to %8d  %4d  %s\n", from, from + width - 1, many[bin], bar
    }
    printf "%d seeds ended with a count of %s, %d were cut\n", seeds, species, cut
}

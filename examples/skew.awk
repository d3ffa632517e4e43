# Turns the rows of a hexagonal surface from offset ones, where every second row stands half a site to the right, into the
# skewed ones of a manifest, where each row stands half a site to the right of the one above.
#   awk -v inert=. -f examples/skew.awk < rows        for a surface that doesn't wrap: the rows get inert sites at both ends
#   awk -f examples/skew.awk < rows                   for one that wraps: the rows are turned
# If the first, third, .. row is the one that stands to the right, put a row of inert sites above all others.
{ row[NR] = $0 }

END {
  most = int((NR - 1) / 2)
  for (r = 1; r <= NR; r++) {
    count = split(row[r], site, " ")
    left = int((r - 1) / 2)
    line = ""
    if (inert != "") for (i = 0; i < most - left; i++) line = line " " inert
    for (i = 0; i < count; i++) line = line " " site[inert != "" ? i + 1 : (i + left) % count + 1]
    if (inert != "") for (i = 0; i < left; i++) line = line " " inert
    print substr(line, 2)
  }
}

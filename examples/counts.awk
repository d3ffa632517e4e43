# Makes a table of counts from the text of one run, or of several one after the other: a line for each surface, with its
# time in units and the number of sites with each species.
#   ./run surface run --samples 20 < examples/decay.manifest | awk -f examples/counts.awk
$1 == "surface" && NF == 3 { time = $2 / 1000000 }

# A name may have ":" in it, so a count is what stands behind the last one.
$1 == "counts" {
  titles = "time"
  numbers = sprintf("%.6f", time)
  for (i = 2; i <= NF; i++) {
    at = length($i)
    while (substr($i, at, 1) != ":") at--
    titles = titles " " substr($i, 1, at - 1)
    numbers = numbers " " substr($i, at + 1)
  }
  if (titles != shown) print titles
  shown = titles
  print numbers
}

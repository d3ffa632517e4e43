# Makes one table of means from a table with the lines of several runs, as counts.awk gives them: a line for each time,
# in their first order. Behind each mean stands the standard error of the mean where -v errors=1 is given.
#   for seed in 1 2 3; do ./run surface run --samples 20 --seed $seed < examples/decay.manifest; done |
#     awk -f examples/counts.awk | awk -f examples/mean.awk
NR == 1 {
  line = $1
  for (i = 2; i <= NF; i++) line = line " " $i (errors ? " +-" : "")
  print line
  next
}

{
  if (!($1 in runs)) order[++times] = $1
  runs[$1]++
  for (i = 2; i <= NF; i++) {
    sum[$1, i] += $i
    squares[$1, i] += $i * $i
  }
  columns = NF
}

END {
  for (t = 1; t <= times; t++) {
    time = order[t]
    n = runs[time]
    line = time
    for (i = 2; i <= columns; i++) {
      mean = sum[time, i] / n
      line = line sprintf(" %.3f", mean)
      if (errors) {
        spread = n > 1 ? (squares[time, i] - n * mean * mean) / (n - 1) : 0
        line = line sprintf(" %.3f", spread > 0 ? sqrt(spread / n) : 0)
      }
    }
    print line
  }
}

# A manifest of the kind that `gen` makes, of any size, for timing:
#   awk -v rows=256 -v cols=256 -v units=18 -f examples/large.awk
# With rows=64, cols=64 and units=20 it is the text of `gen --number 7`.
BEGIN {
  print "rng_seed = 7"
  print "max_duration = " units
  print "lattice = square"
  print "wrap = true"
  print "!START_TRANSITION_RULES"
  print "(1) A + O -> O + A"
  print "(1) B + O -> O + B"
  print "(1/2) A + B -> C + C"
  print "(1/4) C -> A"
  print "!END_TRANSITION_RULES"
  print "!START_INIT_STATE"
  for (row = 0; row < rows; row++) {
    line = ""
    for (col = 0; col < cols; col++) line = line (col ? " " : "") substr("ABCOO", (7 * row + 13 * col + 7) % 5 + 1, 1)
    print line
  }
  print "!END_INIT_STATE"
}

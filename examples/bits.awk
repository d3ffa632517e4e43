# The surfaces in the run of a compiled circuit, with one character for each cell: the bit that it carries, and _ where it
# carries none yet. Of a crossing it is the bit of the row. Inert cells are dots.
#
#   surface compile --inputs 10 < CIRCUIT | surface run | awk -f examples/bits.awk
$1 == "surface" { rows = 1; next }
$1 == "counts" { rows = 0 }
rows {
  line = ""
  for (i = 1; i <= NF; i++) {
    bit = substr($i, 2, 1)
    if ($i == ".") bit = "."
    else if (bit !~ /[01]/ || $i ~ /^g/) bit = "_"
    line = line bit
  }
  print line
}

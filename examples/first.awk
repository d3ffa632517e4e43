# Prints the first tick at which a species appears, or "never": 0 where it stands on the initial surface, else the tick of
# the first event whose rule has it among its products. It reads the canonical manifest, which `print` gives, and then the
# run, so a rule's number is that of its line.
#   ./run surface print < examples/wire.manifest > wire.canonical
#   ./run surface run < examples/wire.manifest | awk -v species=r -f examples/first.awk wire.canonical -
FNR == NR && /^!/ { section = $1; next }

FNR == NR && section == "!START_TRANSITION_RULES" {
  product = 0
  for (i = 2; i <= NF; i++) {
    if ($i == "->") product = 1
    else if (product && $i == species) makes[rules + 0] = 1
  }
  rules++
  next
}

FNR == NR && section == "!START_INIT_STATE" {
  for (i = 1; i <= NF; i++) if ($i == species) first = "0"
  next
}

# It reads on to the end, so that the program has somebody to write to.
FNR < NR && first == "" && $1 == "event" && NF == 7 && ($6 in makes) { first = $2 }
END { print first == "" ? "never" : first }

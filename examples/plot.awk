# Draws a table as counts.awk or mean.awk gives it: a picture (SVG, which every browser shows) with a line for each
# column, from time 0 on.
#   .. | awk -f examples/counts.awk | awk -f examples/plot.awk > plot.svg
NR == 1 { for (i = 2; i <= NF; i++) title[i] = $i; columns = NF; next }
{
  points++
  for (i = 1; i <= columns; i++) {
    at[points, i] = $i
    if (i > 1 && $i + 0 > most) most = $i + 0
  }
}

# a place in the picture for a time and for a count
function across(time) { return 60 + 520 * time / at[points, 1] }
function up(count) { return 340 - 310 * count / most }

# a text at a place, with the place at its start, middle or end
function text(x, y, anchor, words) {
  gsub(/&/, "\\&amp;", words)
  gsub(/</, "\\&lt;", words)
  printf "<text x=\"%.1f\" y=\"%.1f\" text-anchor=\"%s\">%s</text>\n", x, y, anchor, words
}

END {
  if (points < 2 || most == 0 || at[points, 1] == 0) {
    print "plot: the table has too few lines" | "cat >&2"
    close("cat >&2")
    exit 1
  }
  count = split("#0072b2 #d55e00 #009e73 #cc79a7 #e69f00 #56b4e9 #000000", ink, " ")
  print "<svg xmlns=\"http://www.w3.org/2000/svg\" width=\"720\" height=\"390\" font-family=\"sans-serif\" font-size=\"13\">"
  print "<rect width=\"720\" height=\"390\" fill=\"white\"/>"
  print "<path d=\"M60 30 V340 H580\" fill=\"none\" stroke=\"black\"/>"
  for (i = 0; i <= 4; i++) {
    text(54, up(most * i / 4) + 4, "end", sprintf("%.4g", most * i / 4))
    text(60 + 130 * i, 360, "middle", sprintf("%.4g", at[points, 1] * i / 4))
  }
  text(320, 380, "middle", "time")
  for (i = 2; i <= columns; i++) {
    colour = ink[(i - 2) % count + 1]
    line = ""
    for (p = 1; p <= points; p++) line = line sprintf("%s%.1f,%.1f", p > 1 ? " " : "", across(at[p, 1]), up(at[p, i]))
    printf "<polyline points=\"%s\" fill=\"none\" stroke=\"%s\" stroke-width=\"2\"/>\n", line, colour
    printf "<rect x=\"596\" y=\"%d\" width=\"12\" height=\"12\" fill=\"%s\"/>\n", 10 + 20 * i - 11, colour
    text(614, 10 + 20 * i, "start", title[i])
  }
  print "</svg>"
}

# The listing that the board's text tells of: an E line for each call that ends, and the last line.
/^turn [0-9]+: worker [0-9]+ / {
  turn = $2 + 0
  worker = $4
}

/^  its (look|insert|remove) ends with [0-9]+$/ {
  kind = $2 == "look" ? 1 : $2 == "insert" ? 2 : 3
  print "E", turn, worker, kind, $5
}

/^end: / {
  sub(/^end: [0-9]+ lots?; /, "")
  gsub(/[^0-9]+/, " ")
  print "T " $1, $2, $3, $4
}

/^refused by / {
  number = $3 + 0
  match($0, / at offset [0-9]+/)
  print "R", number, substr($0, RSTART + 11, RLENGTH - 11)
}

# Whether the tables of a page are what the board says. First read is the board's text of a sheet, then the page. A table behind a line
# <!-- the board of NAME --> is held to it: of each row the first cell is a turn, or "31 to 37", whose last turn the row is about; the columns
# that are held are found by their headings. In a column that is `what it does` stands what the board says, perhaps with more around it; in
# `what is new in its memory` its lines, joined. Stars count for nothing, and a dot is 0. Writes what is wrong, a line each.

function wrong(what) {
  print FILENAME ":" FNR ": " what
  failed = 1
}

function plain(cell) {
  gsub(/\*/, "", cell)
  gsub(/^ +| +$/, "", cell)
  return cell == "·" ? "0" : cell
}

# ---- the board

NR == FNR && /^turn [0-9]+: worker [0-9]+ / {
  turn = $2 + 0
  worker[turn] = $4
  does[turn] = $0
  sub(/^turn [0-9]+: worker [0-9]+ /, "", does[turn])
  lost += does[turn] ~ /: lost$/
  lost_by[turn] = lost
  last = turn
  next
}

NR == FNR && /^  bucket [0-9]+: version [0-9]+ \[/ {
  number = $2 + 0
  rest = $0
  sub(/^  bucket [0-9]+: version /, "", rest)
  version[turn] = rest + 0
  valid[number] = 0
  for (slot = 0; slot < 3; slot++) {
    match(rest, /\[[^]]*\]/)
    split(substr(rest, RSTART + 1, RLENGTH - 2), shown, ", ")
    rest = substr(rest, RSTART + RLENGTH)
    mark[turn, slot] = shown[1]
    lot[turn, slot] = substr(shown[2], 5)
    ticket[turn, slot] = substr(shown[3], 8)
    valid[number] += shown[1] == "valid"
  }
  stand[turn] = 0
  for (number in valid) stand[turn] += valid[number]
  next
}

NR == FNR && /^  / && turn {
  line = $0
  sub(/^  /, "", line)
  news[turn] = news[turn] (news[turn] == "" ? "" : "; ") line
  next
}

NR == FNR {
  turn = 0
  next
}

# ---- the page

$0 == "<!-- the board of " name " -->" {
  tables++
  state = 1
  next
}

state && !/^\|/ {
  if (NF) state = 0
  else if (state > 1) state = 0
  next
}

state == 1 {
  columns = split($0, heading, /\|/)
  for (i = 2; i < columns; i++) heading[i] = plain(heading[i])
  state = 2
  next
}

state == 2 {
  state = 3
  next
}

state == 3 {
  rows++
  split($0, cells, /\|/)
  first = plain(cells[2])
  sub(/,.*/, "", first)
  until = first
  sub(/.* /, "", until)
  t = until + 0
  if (!(t in does)) {
    wrong("the board has no turn " until)
    next
  }
  for (i = 3; i < columns; i++) {
    cell = plain(cells[i])
    if (heading[i] == "worker") want = worker[t]
    else if (heading[i] == "version") want = version[t]
    else if (heading[i] ~ /^(mark of )?slot [0-2]$/) want = mark[t, substr(heading[i], length(heading[i]))]
    else if (heading[i] == "lot") want = lot[t, 0]
    else if (heading[i] == "ticket") want = ticket[t, 0]
    else if (heading[i] == "lost so far") want = lost_by[t]
    else if (heading[i] == "mark word after it") want = "version " version[t] ", slot 0 " mark[t, 0]
    else if (heading[i] == "on the screen") want = stand[t]
    else if (heading[i] == "what is new in its memory") want = news[t]
    else if (heading[i] == "what it does") {
      if (!index(cell, does[t])) wrong("turn " t " " does[t] ", and not: " cell)
      continue
    } else continue
    held++
    if (cell != want) wrong("turn " t ", " heading[i] ": it is \"" want "\", and not \"" cell "\"")
  }
}

END {
  if (!tables || !rows || !held) {
    print FILENAME ": no table of the board of " name
    failed = 1
  }
  exit failed
}

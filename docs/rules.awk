# Whether each rule of docs/RULES.md leads to its definitions and back. First read are RULES.md, then PROMISES.md with the table of where
# each rule stands, then every file that may cite a rule; a paragraph is what stands between two empty lines. The program is run with
# RS = "" by docs/check. Writes what is wrong, a line each, and at the end how many rules there are and how often they are cited.
#
# - the rules of a section are numbered from 1 on, and each has one row in the table
# - a row names definitions and, after them, the file they are in; each of them stands in a paragraph of that file which cites the rule (a
#   file that has the name itself counts as one paragraph). A row without any says that nothing stands for the rule, or has a page instead
# - what a paragraph of specs/ cites has that paragraph's definition in its row
# - there is no citation of a rule or a section that is not there

function wrong(what) {
  print "docs/rules: " what
  failed = 1
}

# the name that a line declares, or nothing
function declared(line) {
  if (FILENAME ~ /\.antt$/) {
    if (line !~ /^ *(abbrev +|unfoldable +)?(pub +)?(data +|record +)?[^ :(){}]+( .*)?:/ || line ~ /^ *--/) return ""
    sub(/^ *(abbrev +|unfoldable +)?(pub +)?(data +|record +)?/, "", line)
    sub(/[ :({].*/, "", line)
    return line
  }
  if (line ~ /^ *\/\// || !match(line, /(^|[ (])(fn|struct|enum|const) +[A-Za-z_0-9]+/)) return ""
  line = substr(line, RSTART, RLENGTH)
  sub(/.* /, "", line)
  return line
}

function own_name(path) {
  sub(/.*\//, "", path)
  sub(/\..*/, "", path)
  return path
}

# the rules of RULES.md: "**§2.5**" at the start of a line, or in a table's first cell; sections are "## 2. The board"
FILENAME ~ /RULES\.md$/ {
  n = split($0, lines, "\n")
  for (i = 1; i <= n; i++) {
    line = lines[i]
    if (line ~ /^## [0-9]+\. /) {
      sub(/^## /, "", line)
      section = line + 0
      sections[section] = 1
      last = 0
    } else if (match(line, /^(\| )?\*\*§[0-9]+\.[0-9]+\*\*/)) {
      sub(/^(\| )?\*\*§/, "", line)
      sub(/\*\*.*/, "", line)
      if (line != section "." (last + 1)) wrong("RULES.md: §" line " stands where §" section "." (last + 1) " should")
      last++
      rules[++count] = line
      is_rule[line] = 1
    }
  }
}

# a row: | §2.5 | gist | `version`, `markOf` in [mark/specs/Word.antt](../crates/mark/specs/Word.antt); .. |
FILENAME ~ /PROMISES\.md$/ {
  n = split($0, lines, "\n")
  for (i = 1; i <= n; i++) {
    line = lines[i]
    if (line !~ /^\| §[0-9]+\.[0-9]+ \|/) continue
    rule = line
    sub(/^\| §/, "", rule)
    sub(/ .*/, "", rule)
    if (rule in row) wrong("PROMISES.md: §" rule " has two rows")
    row[rule] = 1
    if (line !~ /`/ && line !~ /\| nothing stands for it|\]\(DECISIONS\.md#/) wrong("PROMISES.md: the row of §" rule " leads nowhere")
    waiting = 0
    while (match(line, /`[^`]+`|\]\(\.\.\/[^)]+\)/)) {
      token = substr(line, RSTART, RLENGTH)
      line = substr(line, RSTART + RLENGTH)
      if (token ~ /^`/) {
        wait[++waiting] = substr(token, 2, length(token) - 2)
      } else {
        path = substr(token, 6, length(token) - 6)
        for (j = 1; j <= waiting; j++) leads[rule, path, wait[j]] = 1
        waiting = 0
      }
    }
    if (waiting) wrong("PROMISES.md: the row of §" rule " ends without a file")
  }
}

# what is cited, and by which paragraph
FILENAME !~ /RULES\.md$/ {
  rest = $0
  delete here
  cites = 0
  while (match(rest, /§[0-9]+(\.[0-9]+)?/)) {
    rule = substr(rest, RSTART, RLENGTH)
    sub(/^§/, "", rule)
    rest = substr(rest, RSTART + RLENGTH)
    cited++
    if (rule !~ /\./ ? !(rule in sections) : !(rule in is_rule)) wrong(FILENAME ": there is no §" rule)
    if (rule ~ /\./ && !(rule in here)) here[rule] = ++cites
  }
  if (cites && FILENAME !~ /\.md$/) {
    names = 0
    n = split($0, lines, "\n")
    for (i = 1; i <= n; i++) if ((name = declared(lines[i])) != "") list[++names] = name
    for (rule in here) {
      found[rule, FILENAME, own_name(FILENAME)] = 1
      listed = (rule, FILENAME, own_name(FILENAME)) in leads
      for (i = 1; i <= names; i++) {
        found[rule, FILENAME, list[i]] = 1
        if ((rule, FILENAME, list[i]) in leads) listed = 1
      }
      if (FILENAME ~ /\/specs\// && !listed) wrong(FILENAME ": cites §" rule " over " (names ? list[1] : "no definition") ", which is not in its row of PROMISES.md")
    }
  }
}

END {
  for (i = 1; i <= count; i++) if (!(rules[i] in row)) wrong("PROMISES.md: §" rules[i] " has no row")
  for (rule in row) if (!(rule in is_rule)) wrong("PROMISES.md: there is no §" rule ", which has a row")
  for (key in leads) {
    split(key, part, SUBSEP)
    if (!(key in found)) wrong(part[2] ": `" part[3] "` does not cite §" part[1] ", which leads to it")
  }
  print count " rules, cited " cited " times"
  exit failed
}

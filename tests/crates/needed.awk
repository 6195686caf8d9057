# needed.awk CRATES-TXT FILES: see tests/crates/run. FILES is a list of paths, one a line.

# the lines of crates.txt; a name that has no line of its own is a library of the kit
FNR == NR {
  text_line[++lines] = $0
  sub(/#.*/, "")
  if (!(i = index($0, ":"))) next
  c = substr($0, 1, i - 1)
  crate[++crates] = c; line_of[c] = lines; known[c] = 1
  n = split(substr($0, i + 1), dep, " ")
  for (k = 1; k <= n; k++) { listed[c, dep[k]] = 1; known[dep[k]] = 1; order[c, ++count[c]] = dep[k] }
  next
}

{ split($0, part, "/"); file = $0; c = part[2]; files[c] = files[c] " " file; owner[file] = c }

# a module of the crate hides a crate of its name
$0 ~ /^crates\/[^\/]*\/src\/[^\/]*(\.rt|\/.*)$/ { m = part[4]; sub(/\.rt$/, "", m); module[c, m] = 1 }

function content(file,    line, out, comment) {
  comment = file ~ /\.rt$/ ? "//.*" : "(^|[ \t])--.*"
  while ((getline line < file) > 0) { sub(comment, "", line); out = out line "\n" }
  close(file)
  return out
}

# every match of a pattern in a text, one after the other: sets found, answers the text behind it
function after(text, pattern) {
  if (!match(text, pattern)) { found = ""; return "" }
  found = substr(text, RSTART, RLENGTH)
  return substr(text, RSTART + RLENGTH)
}

# the crate that the first word of a path means in crate c
function means(c, word) { return known[word] && !((c, word) in module) ? word : c }

function needs(c, d) { if (d != c && d != "std") needed[c, d] = 1 }

# `use a::b::Name;`, `use a::{b::Name, Other};`: whose each name is in this file
function read_uses(file, c, text) {
  while ((text = after(text, "\n *(pub(\\([a-z]+\\))? )?use [a-z_][^;]*;")) != "" || found != "") {
    sub(/.*use /, "", found); sub(/;$/, "", found); gsub(/[ \t\n]+/, " ", found)
    read_use(file, c, found)
  }
}
function read_use(file, c, path,    head, i, n, depth, part, letter, words, name, bound) {
  if (i = index(path, "{")) {
    head = substr(path, 1, i - 1)
    path = substr(path, i + 1)
    for (i = 1; i <= length(path); i++) {
      letter = substr(path, i, 1)
      if (letter == "{") depth++
      if ((letter == "," && !depth) || (letter == "}" && !depth--)) { read_use(file, c, head part); part = "" } else part = part letter
    }
    return
  }
  bound = path
  sub(/ as .*/, "", path); gsub(/ /, "", path)
  n = split(path, words, "::")
  name = words[n] == "self" ? words[n - 1] : words[n]
  if (n < 2 || name == "") return
  if (bound ~ / as /) { sub(/.* as /, "", bound); gsub(/ /, "", bound) } else bound = name
  whose[file, bound] = means(c, words[1])
  needs(c, means(c, words[1]))
  used[c, ++uses[c]] = means(c, words[1]) SUBSEP name
}

# the types that a stretch of code mentions, added to what a declaration leads to
function leads(from, file, c, text,    d) {
  while ((text = after(text, "[A-Za-z_][A-Za-z0-9_]*")) != "" || found != "") {
    if (found !~ /^[A-Z].*[a-z]/) continue
    d = (file, found) in whose ? whose[file, found] : c
    to[from] = to[from] " " d ":" found
  }
}

function read_declarations(file, c, text,    name, rest, body) {
  rest = text
  while ((rest = after(rest, "(struct|enum) [A-Za-z0-9_]+")) != "") {
    name = found; sub(/.* /, "", name)
    body = substr(rest, 1, index(rest, "\n}"))
    declares[c, name] = 1
    leads("type" SUBSEP c SUBSEP name, file, c, body)
  }
  rest = text
  while ((rest = after(rest, "fn [a-z_0-9]+")) != "") {
    name = substr(found, 4)
    match(rest, /requires|ensures|measure|\{/)
    leads("fn" SUBSEP c SUBSEP name, file, c, substr(rest, 1, RSTART - 1))
  }
}

# the crates that code names by paths, and the functions at their ends. A name that a `use` of the file brings is that one's, as `io` of
# `use std::io;`
function read_paths(file, c, text,    words, n, d) {
  while ((text = after(" " text, "[^A-Za-z0-9_:.][a-z][a-z0-9_]*(::[A-Za-z0-9_]+)+")) != "" || found != "") {
    n = split(substr(found, 2), words, "::")
    d = (file, words[1]) in whose ? whose[file, words[1]] : means(c, words[1])
    if (d == c) continue
    needs(c, d)
    used[c, ++uses[c]] = d SUBSEP words[n]
  }
}

# the crates whose definitions, laws and goals a text names, as `Rattle.CRATE.specs.M`
function read_libraries(c, text,    name) {
  while ((text = after(" " text, "[^A-Za-z0-9_.]Rattle\\.[a-z0-9_]+\\.")) != "" || found != "") {
    name = found; sub(/.*Rattle\./, "", name); sub(/\.$/, "", name)
    needs(c, name)
  }
}

# the crates of all types that crate c reaches
function reach(c,    i, n, todo, have, seen, p, more, k) {
  for (i = 1; i <= uses[c]; i++) {
    split(used[c, i], p, SUBSEP)
    if ((p[1], p[2]) in declares) todo[++n] = p[1] ":" p[2]
    else { k = split(to["fn", p[1], p[2]], more, " "); for (; k > 0; k--) todo[++n] = more[k] }
  }
  for (i = 1; i <= n; i++) {
    if (todo[i] in seen) continue
    seen[todo[i]] = 1
    split(todo[i], p, ":")
    if (!((p[1], p[2]) in declares)) continue
    needs(c, p[1])
    k = split(to["type", p[1], p[2]], more, " ")
    for (; k > 0; k--) todo[++n] = more[k]
  }
}

END {
  for (i = 1; i <= crates; i++) {
    c = crate[i]
    n = split(files[c], list, " ")
    for (k = 1; k <= n; k++) {
      text = "\n" content(list[k])
      read_libraries(c, text)
      if (list[k] !~ /\.rt$/) continue
      read_uses(list[k], c, text); read_paths(list[k], c, text); read_declarations(list[k], c, text)
    }
  }
  for (i = 1; i <= crates; i++) {
    c = crate[i]
    reach(c)
    line = c ":"
    for (k = 1; k <= count[c]; k++)
      if ((c, order[c, k]) in needed) { line = line " " order[c, k]; kept++ }
      else { print_bad(c " lists " order[c, k] " and needs it not") }
    for (pair in needed) { split(pair, p, SUBSEP); if (p[1] == c && !(pair in listed)) { line = line " " p[2]; print_bad(c " needs " p[2] " and does not list it") } }
    text_line[line_of[c]] = line
  }
  if (print_all == "--print") for (i = 1; i <= lines; i++) print text_line[i]
  else if (!bad) print "crates: the " kept " entries of " crates " lines are those that the crates need"
  exit bad && print_all == ""
}
function print_bad(words) { bad++; if (print_all == "") print "crates: " words }

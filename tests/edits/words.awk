# words.awk FILES: see tests/edits/run. FILES is a list of paths, one a line: those of crates, then those of edits.
#
# A word is declared at a place if the file's `use` or `module` lines or its own declarations name it, or if it stands in the paragraph (of
# an .rt file: the item) in which the edit is made. The edit itself may bring a `use`, a declaration and bound variables. Names written in
# full, names brought by a `use`, fields and variants are looked up where they are declared.

BEGIN {
  n = split("Type Unit record let in where module use pub abbrev unfoldable opaque data if then else λ → × ⊥ : = . .. _ [] | -> ()", w, " ")
  for (i = 1; i <= n; i++) built_in["antt", w[i]] = 1
  n = split("true false if else while return match let mut as u8 u32 u64 usize bool MAX const pub fn use ghost crate self Self for in if Option Some None Result Ok Err", w, " ")
  for (i = 1; i <= n; i++) built_in["rt", w[i]] = 1
  apart["antt"] = "[ \n(){};,]"; apart["rt"] = "[^A-Za-z0-9_.]"
  # projections that no declaration of the repository has: of a reference, and of a pair
  n = split("now old new 0 1", w, " ")
  for (i = 1; i <= n; i++) field[w[i]] = variant[w[i]] = 1
  # methods of the library that no declaration of the repository has
  n = split("and_then iter min unwrap unwrap_or zip", w, " ")
  for (i = 1; i <= n; i++) field[w[i]] = 1
}

function bad(message) { print "edits: " edit ": " message; failed = 1 }

# a file's text, without comments; "" where there is none
function content(file, whole,    line, out) {
  if (!((file, whole) in kept)) {
    while ((getline line < file) > 0) out = out (whole ? line : uncommented(line, kind(file))) "\n"
    close(file)
    kept[file, whole] = out
  }
  return kept[file, whole]
}
function uncommented(line, k) { sub(k == "rt" ? "(^|[ \t])//.*" : "(^|[ \t])--.*", "", line); return line }
function uncommented_all(text, k,    n, i, line, out) {
  n = split(text, line, "\n")
  for (i = 1; i <= n; i++) out = out uncommented(line[i], k) "\n"
  return out
}
function kind(file) { return file ~ /\.rt$/ ? "rt" : "antt" }

# the words of a text, as keys of `word`. An operator's name has ◌ for each operand
function words(text, k,    n, i, part) {
  split("", word)
  if (k == "rt") gsub(/[^A-Za-z0-9_.]+/, " ", text)
  else { gsub(/◌/, " ", text); gsub(/[(){};,\n]/, " ", text) }
  n = split(text, part, " ")
  for (i = 1; i <= n; i++) {
    if (k == "rt") sub(/^\.+/, "", part[i])
    if (k == "rt" && index(part[i], ".")) { split_at_dots(part[i]); continue }
    word[part[i]] = 1
  }
}
function split_at_dots(text,    n, i, part) { n = split(text, part, "."); for (i = 1; i <= n; i++) word[part[i]] = 1 }

function has(text, name, k) { words(text, k); return name in word }

# the part of `text` around place `at` up to the next empty lines; of an .rt file up to the ends of items
function around(text, at, k,    from, to, i, rest, mark) {
  mark = k == "rt" ? "\n}\n" : "\n\n"
  from = 1
  while ((i = index(substr(text, from), mark)) && from + i + length(mark) - 2 < at) from += i + length(mark) - 1
  rest = substr(text, at)
  to = index(rest, mark)
  return substr(text, from, to ? at - from + to + length(mark) : length(text))
}

# a text with each `use` that goes over several lines on one
function with_whole_uses(text, k,    n, i, line, out, open) {
  n = split(text, line, "\n")
  for (i = 1; i <= n; i++) {
    if (line[i] ~ /^ *(pub )?(ghost )?use /) open = 1
    if (open && (k == "rt" ? line[i] ~ /;/ : line[i] !~ /\{/ || line[i] ~ /\}/)) open = 0
    if (open && k == "antt" && i < n) { line[i + 1] = line[i] " " line[i + 1]; continue }
    out = out line[i] (open ? " " : "\n")
  }
  return out
}

# what the whole file can use: its `use` and `module` lines and what it declares
function top(text, k,    n, i, line, out, first) {
  n = split(with_whole_uses(text, k), line, "\n")
  for (i = 1; i <= n; i++) {
    line[i] = uncommented(line[i], k)
    if (k == "antt" && line[i] ~ /^ *(use|module|open) /) out = out line[i] "\n"
    else if (k == "antt" && match(line[i], /^ *((pub|abbrev|unfoldable|opaque|data|record) )*[^ ]+ :/)) {
      first = substr(line[i], 1, RLENGTH - 2); sub(/.* /, "", first); out = out first "\n"
    } else if (k == "antt" && match(line[i], /^ *(pub )?(data|record) [^ ]+/)) {
      first = substr(line[i], 1, RLENGTH); sub(/.* /, "", first); out = out first "\n"
    }
    if (k == "rt" && line[i] ~ /^ *(pub )?(ghost )?(use|mod) /) out = out line[i] "\n"
    else if (k == "rt" && match(line[i], /^ *(pub )?(fn|struct|enum|const) [A-Za-z0-9_]+/)) {
      first = substr(line[i], 1, RLENGTH); sub(/.* /, "", first); out = out first "\n"
    }
  }
  return out
}

# the file of a module, "" where it is none, or the folder of a crate's code for a module of its types: of a crate here, or of the kit
function module_file(name,    part, n, root, path) {
  n = split(name, part, ".")
  if (part[1] == "Rattle") {
    root = (part[2] in has_source ? "crates/" : kit "/rattle/") part[2]
    if (part[4] == "declared") return root "/src"
    path = substr(name, length(part[1] part[2]) + 2)
    gsub(/\./, "/", path)
    return root path ".antt"
  }
  path = substr(name, length(part[1]) + 1)
  gsub(/\./, "/", path)
  if (part[1] == "lib") return kit "/rattle/logic/Lib" path ".antt"
  if (part[1] == "mathlib") return kit "/rattle/antt/port/mathlib/src" path ".antt"
  if (part[1] == "native") return kit "/rattle/antt/lib/native/src" path ".antt"
  return ""
}

# the files of code below a folder of the kit, as indices of `kit_source`
function read_kit_sources(folder,    command, line) {
  if (folder in kit_read) return
  kit_read[folder] = 1
  command = "find '" folder "' -name '*.rt'"
  while ((command | getline line) > 0) kit_source[line] = folder
  close(command)
}

# whether a module declares a name. What the prover has built in stands in no file
function declares(module, name,    file, i) {
  file = module_file(module)
  if (file ~ /\/src$/) {
    if (index(file, "crates/") != 1) {
      read_kit_sources(file)
      for (i in kit_source) if (kit_source[i] == file && has(content(i, 0), name, "rt")) return 1
      return 0
    }
    for (i = 1; i <= sources; i++) if (index(source[i], file "/") == 1 && has(content(source[i], 0), name, "rt")) return 1
    return 0
  }
  if (module ~ /^Prim\./) return 1
  return has(content(file, 0), name, "antt")
}

# `use MODULE.{a, b as c}` of a new text
function check_use(text,    module, names, n, i, name, m, j, word_of) {
  if (!match(text, /^ *(pub )?(ghost )?use [^ :]+\.\{/)) return 0
  module = substr(text, 1, RLENGTH - 2); sub(/.*use /, "", module)
  names = substr(text, RLENGTH + 1); sub(/\}.*/, "", names)
  n = split(names, name, /, */)
  for (i = 1; i <= n; i++) {
    sub(/ as .*/, "", name[i])
    # of an operator, its signs
    gsub(/◌/, " ", name[i])
    m = split(name[i], word_of, " ")
    for (j = 1; j <= m; j++) if (!declares(module, word_of[j])) bad(module " does not declare " word_of[j])
  }
  return 1
}

# names that the new text binds or declares: those before a colon, and the variables of a clause `name pattern.. = ..`
function bound(text,    out, head) {
  if (match(text, /^[^={}]+ = /)) {
    head = substr(text, 1, RLENGTH - 3)
    sub(/^ *[^ ]+/, "", head)
    gsub(/[()]/, " ", head)
    gsub(/ [^ ]*[A-Z.][^ ]*/, "", head)
    out = head
  }
  while (match(text, /[({]?[^(){}:.]+ :( |$)/)) {
    head = substr(text, RSTART, RLENGTH - 2); sub(/:? *$/, "", head); gsub(/[({]/, " ", head)
    out = out " " head
    text = substr(text, RSTART + RLENGTH)
  }
  return out
}

# names that an old text declares for others: with their types, by `let` or by `const`
function declared(text, k,    out, head) {
  if (k == "antt") {
    if (match(text, /^ *((pub|abbrev|unfoldable|opaque) )*[^ (){}]+ : /)) { out = substr(text, 1, RLENGTH - 3); sub(/.* /, "", out) }
    return out
  }
  while (match(text, /(let( mut)?|const) [A-Za-z_0-9]+/)) {
    head = substr(text, RSTART, RLENGTH); sub(/.* /, "", head)
    out = out " " head
    text = substr(text, RSTART + RLENGTH)
  }
  return out
}

function check_kept(old, new, k,    name, n, i) {
  n = split(declared(uncommented(old, k), k), name, " ")
  words(uncommented(new, k), k)
  for (i = 1; i <= n; i++) if (!(name[i] in word)) bad("the name " name[i] " is declared no more in " file)
}

# `w.total`, `f.head.next`, `c.Row`: fields of what is bound at the place, or what a module of that name has
function check_path(name,    part, n, i) {
  n = split(name, part, ".")
  for (i = 2; i <= n; i++) if (!(part[i] in field) && !(part[i] in variant)) bad("no type has a field or variant " part[i])
}

function check_word(name, k,    module, last, head, n, part, i) {
  if (name ~ /^[-+*\/%<>=!&|^.:"0-9x]*$/ && k == "rt") return
  if (name ~ /^[0-9]+\.?$/ || name ~ /^0x[0-9a-f]+$/ || name ~ /^\.[0-9]+$/ || (k, name) in built_in) return
  if (k == "rt" && name ~ /^[0-9]/) return
  if (name ~ /^\.[^.]/) {  # a field, or one of a field
    n = split(substr(name, 2), part, ".")
    for (i = 1; i <= n; i++) { gsub(/[«»]/, "", part[i]); if (!(part[i] in field)) bad("no record has a field " part[i]) }
    return
  }
  if (name in scope_word) return
  if (name in set) { if (!(name in field)) bad("no record has a field " name); return }
  if (k == "antt" && match(name, /\.[^.]+$/) && RSTART > 1) {
    module = substr(name, 1, RSTART - 1); last = substr(name, RSTART + 1)
    if (name ~ /^(Rattle|lib|mathlib|Prim|native)\./) { if (!declares(module, last)) bad(module " does not declare " last); return }
    head = name; sub(/\..*/, "", head)
    if (head in scope_word) { check_path(name); return }
  }
  sub(/\.$/, "", name)
  if (name == "" || name in scope_word) return
  if (!has(uncommented_all(text_of[file], k), name, k)) return  # another replacement of the edit has taken it away
  bad("the word " name " is not declared at its place in " file)
}

# the letters of a word that stand right before place `at` of a text, and those that stand right at it
function before(text, at, k,    i) {
  for (i = at - 1; i && substr(text, i, 1) !~ apart[k]; i--) ;
  return substr(text, i + 1, at - i - 1)
}
function behind(text, at, k,    i) {
  for (i = at; i <= length(text) && substr(text, i, 1) !~ apart[k]; i++) ;
  return substr(text, at, i - at)
}

# the line of a text around place `at`
function line_around(text, at,    from, to) {
  for (from = at; from > 1 && substr(text, from - 1, 1) != "\n"; from--) ;
  to = index(substr(text, from), "\n")
  return substr(text, from, to ? to - 1 : length(text))
}

# the words of a new text against what is declared at its place. `line` is the line in which it stands then; `first` and `last` are what is
# left in it of the words in which it begins and ends
function check_new(new, k, scope, line, first, last,    text, todo_text, w, todo, n, i) {
  text = uncommented(new, k)
  if (check_use(line)) return
  words(scope, k)
  split("", scope_word)
  for (w in word) {
    scope_word[w] = 1
    # `w.total` stands where w is bound, and so does the `w.` of a lambda
    if (k == "antt" && sub(/\..*/, "", w) && w != "") scope_word[w] = 1
  }
  if (k == "antt") words(bound(text), k)
  for (w in word) scope_word[w] = 1
  # `record { field = value; .. }`, and a line of one
  split("", set)
  if (k == "antt") {
    todo_text = text
    while (match(todo_text, /(^|[{;]) *[^ (){};]+ = /)) {
      w = substr(todo_text, RSTART, RLENGTH - 3); sub(/.*[ {;]/, "", w); set[w] = 1
      todo_text = substr(todo_text, RSTART + RLENGTH)
    }
  }
  if (k == "rt") {
    while (match(text, /(let( mut)?|const|fn) [A-Za-z_0-9]+/)) {
      w = substr(text, RSTART, RLENGTH); sub(/.* /, "", w); scope_word[w] = 1
      text = substr(text, RSTART + RLENGTH)
    }
    text = uncommented(new, k)
    # fields and methods may be those of another file's type
    while (match(text, /\.[a-z_][A-Za-z0-9_]*/)) {
      check_word(substr(text, RSTART, RLENGTH), k)
      text = substr(text, 1, RSTART - 1) " " substr(text, RSTART + RLENGTH)
    }
    # functions of another file's module too
    while (match(text, /::[a-z_][A-Za-z0-9_]*\(/)) {
      w = substr(text, RSTART + 2, RLENGTH - 3)
      text = substr(text, 1, RSTART - 1) " " (w in field ? "" : w) "(" substr(text, RSTART + RLENGTH)
    }
    # those of a struct literal too
    while (match(text, /(^|[ {(])[a-z][a-z0-9_]*: /)) {
      w = substr(text, RSTART, RLENGTH - 2); sub(/^[ {(]/, "", w); if (!(w in field)) bad("no struct has a field " w)
      text = substr(text, 1, RSTART - 1) " " substr(text, RSTART + RLENGTH)
    }
    while (match(text, /::[A-Z][A-Za-z0-9_]*/)) {
      w = substr(text, RSTART + 2, RLENGTH - 2); if (!(w in variant)) bad("no type has a variant or constant " w)
      text = substr(text, 1, RSTART - 1) " " substr(text, RSTART + RLENGTH)
    }
  }
  words(first text last, k)
  n = 0
  for (w in word) todo[++n] = w
  for (i = 1; i <= n; i++) check_word(todo[i], k)
}

function read_edit(    line, crate, old, new, at, rest, k, pairs, i) {
  crate = edit; sub(/\/must-fail\/.*/, "", crate)
  split("", text_of)
  file = old = ""; pairs = 0
  while ((getline line < edit) > 0) {
    if (index(line, "file: ") == 1) {
      file = crate "/" substr(line, 7)
      if (!(file in text_of)) text_of[file] = content(file, 1)
      if (text_of[file] == "") { bad("there is no " file); return }
    } else if (index(line, "old: ") == 1) old = substr(line, 6)
    else if (index(line, "new:") == 1) {
      new = substr(line, 5); sub(/^ /, "", new)
      if (old == "" || file == "") { bad("a `new:` has no `old:` or no `file:`"); break }
      if (old == new) bad("`old:` and `new:` are the same")
      at = index(text_of[file], old)
      if (!at) { bad("an `old:` is not in " file ": " old); break }
      rest = substr(text_of[file], at + length(old))
      if (index(rest, old)) { bad("an `old:` is in " file " more than once: " old); break }
      pairs++
      pair_old[pairs] = old
      k = kind(file)
      pair_file[pairs] = file; pair_new[pairs] = new; pair_place[pairs] = around(text_of[file], at, k)
      pair_first[pairs] = before(text_of[file], at, k); pair_last[pairs] = behind(rest, 1, k)
      text_of[file] = substr(text_of[file], 1, at - 1) new rest
      pair_line[pairs] = line_around(text_of[file], at)
      old = ""
    }
  }
  close(edit)
  if (!pairs) bad("it has no pair of `old:` and `new:`")
  for (i = 1; i <= pairs; i++) {
    file = pair_file[i]; k = kind(file)
    check_kept(pair_old[i], pair_new[i], k)
    check_new(pair_new[i], k, top(text_of[file], k) "\n" pair_place[i] "\n" pair_old[i], pair_line[i], pair_first[i], pair_last[i])
    count++
  }
}

# fields and variants of the code's types and of records, by their layout
function read_source(file,    n, i, line, name, k) {
  source[++sources] = file
  name = file; sub(/^crates\//, "", name); sub(/\/.*/, "", name); has_source[name] = 1
  k = kind(file)
  n = split(content(file, 0), line, "\n")
  for (i = 1; i <= n; i++) {
    if (k == "rt") {
      if (match(line[i], /^ +(pub )?[a-z_][a-z0-9_]*: /)) { name = substr(line[i], 1, RLENGTH - 2); sub(/.* /, "", name); field[name] = 1 }
      if (match(line[i], /fn [a-z_][a-z0-9_]*/)) field[substr(line[i], RSTART + 3, RLENGTH - 3)] = 1
      if (match(line[i], /^ +[A-Z][A-Za-z0-9]*[,({]/)) { name = substr(line[i], 1, RLENGTH - 1); sub(/.* /, "", name); variant[name] = 1 }
      if (match(line[i], /const [A-Z][A-Z0-9_]*/)) variant[substr(line[i], RSTART + 6, RLENGTH - 6)] = 1
    } else if (match(line[i], /^ +(pub )?[^ ]+ : /)) {
      name = substr(line[i], 1, RLENGTH - 3); sub(/.* /, "", name); field[name] = variant[name] = 1
    }
  }
}

/\.edit$/ { edit = $0; edits++; read_edit(); next }
{ read_source($0) }
END {
  if (!failed) print "edits: " edits + 0 " must-fail edits, " count + 0 " replacements, every word of them declared"
  exit failed
}

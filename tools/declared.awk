# declared.awk: "NAME<tab>TEXT" for each declaration of a file, without comments, blank lines and layout (tools/landing). Of an .antt file
# the text is all of the declaration; of an .rt file it is the `requires` and `ensures` of each function that has some.

function put() {
  if (name != "") { gsub(/[ \t]+/, " ", text); print name "\t" text }
  name = text = ""
}

# the name that an .antt line at the margin begins to declare, "" where it goes on
function begun(line,    word, i, c) {
  c = split(line, word, " ")
  for (i = 1; word[i] ~ /^(pub|abbrev|unfoldable|opaque|data|record)$/; i++) ;
  if (word[i] == "use" || word[i] == "module" || word[i] == "open") return word[i]
  if (i > 1 || word[i + 1] == ":") return word[i]
  return ""
}

{ sub(/(^|[ \t])(--|\/\/).*/, "") }
/^[ \t]*$/ { next }

# .rt: `ghost use` and `use` come first, so the first line of code tells the two apart
/^(ghost use |pub mod |mod |use [a-z_]+::|#!?\[|pub fn |fn |pub struct |struct |pub enum |enum |const |pub const |impl )/ { code = 1 }
code {
  if (match($0, /^impl[^{]*/)) { owner = $0; sub(/^impl(<[^>]*>)? */, "", owner); sub(/[ <{].*/, "", owner) }
  if ($0 ~ /^}/) owner = ""
  if ($0 ~ /^ *(pub )?(extern "C" )?fn [a-z_0-9]+/) {
    put()
    function_name = $0
    sub(/.*fn /, "", function_name); sub(/[(<].*/, "", function_name)
    name = (owner == "" ? "" : owner "::") function_name
    contract = 0
  }
  if (name != "" && $0 ~ /^ *(requires|ensures|measure) /) contract = 1
  if (name != "" && ($0 ~ /^ *\{$/ || (!contract && $0 ~ /\{$/))) { if (text == "") name = ""; put(); next }
  if (name != "" && contract) text = text $0 " "
  next
}

# what a module holds stands two places further in
{ line = $0 }
/^[^ \t]/ { inside = 0 }
inside { sub(/^  /, "", line) }
line ~ /^[^ \t]/ { b = begun(line); if (b != "" && b != name) { put(); name = b == "module" ? "module " ++modules : b } }
/^module / { inside = 1 }
name == "use" || name == "open" { name = ""; next }
name != "" { text = text $0 " " }
END { put() }

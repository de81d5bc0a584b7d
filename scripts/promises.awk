# awk -f scripts/promises.awk FILE: 'name|given|wrong' for each `pub fn` of a source, also of one in an inline module, and for each function of a `pub trait`
# and of an `impl` of a trait. The name is Type::name for a method, Trait::name for a trait's, and what the prover calls it for one of an `impl`: the type, the
# trait and what the trait is of, as in KindTryFromU64::try_from. given is 1 where the promise gives the whole outcome by equations; wrong is what is wrong
# with it; a trait's function without a body, which says what who implements the trait owes, is told only where something is wrong with it. The outcome is the result and
# what each `&mut` holds after the call. The promise of an `impl` is its own `ensures`, or the ghost member by which the trait says what comes out (`eq`,
# `cmp`, `from_gives`, or `output`, the bytes that are printed); an `impl` of a trait of the same file has the trait's, and one of Debug or Error none. What stands under `#[test]` or
# `#[cfg(test)]` no host can reach: it is passed over.

# comments left out, literals emptied; a lifetime and a prime stay
function cleaned(s,   out, found, before, first, character) {
  character = "^([^\\\\'\n\200-\377]|[\300-\377][\200-\277]+|\\\\[^\n][^'\n]*)'"
  while (match(s, /\/\/|\/[*]|r#*"|"|'/)) {
    found = substr(s, RSTART, RLENGTH)
    before = RSTART > 1 ? substr(s, RSTART - 1, 1) : substr(out, length(out))
    out = out substr(s, 1, RSTART - 1)
    s = substr(s, RSTART + RLENGTH)
    if (found == "//") { s = index(s, "\n") ? substr(s, index(s, "\n")) : "" ; continue }
    if (found == "/*") { s = index(s, "*/") ? substr(s, index(s, "*/") + 2) : "" ; continue }
    # whether a literal may begin here: no name ends here, but a `b`
    first = before !~ /[A-Za-z0-9_']/ || out ~ /(^|[^A-Za-z0-9_])b$/
    if (found == "'") {
      if (first && match(s, character)) { out = out "\"\""; s = substr(s, RLENGTH + 1) } else out = out found
      continue
    }
    if (found ~ /^r/ && first) {
      found = "\"" substr(found, 2, length(found) - 2)
      out = out "\"\""
      s = index(s, found) ? substr(s, index(s, found) + length(found)) : ""
      continue
    }
    if (found ~ /^r/) out = out substr(found, 1, length(found) - 1)
    out = out "\"\""
    while (match(s, /\\.|"/)) {
      found = substr(s, RSTART, 1)
      s = substr(s, RSTART + RLENGTH)
      if (found == "\"") break
    }
  }
  return out s
}

# where the bracket that opens at the i-th place closes
function closes(s, i,   depth, at) {
  at = i
  s = substr(s, i)
  while (match(s, /[][(){}]/)) {
    depth += index("([{", substr(s, RSTART, 1)) ? 1 : -1
    at += RSTART
    s = substr(s, RSTART + 1)
    if (!depth) return at - 1
  }
  return 0
}

# what follows a list of type parameters, if s begins with one: no `>` of an arrow closes it
function past_parameters(s,   depth, found, rest) {
  if (s !~ /^[ \n]*</) return s
  rest = s
  while (match(rest, /->|=>|[<>]/)) {
    found = substr(rest, RSTART, RLENGTH)
    rest = substr(rest, RSTART + RLENGTH)
    if (found == "<") depth++
    if (found == ">" && !--depth) return rest
  }
  return s
}

# the last place of an operator outside all brackets, or 0
function outside(s, operator,   depth, at, found, last) {
  at = 1
  while (match(s, operator "|[][(){}]")) {
    found = substr(s, RSTART, RLENGTH)
    if (found == operator) { if (!depth) last = at + RSTART - 1 } else depth += index("([{", found) ? 1 : -1
    at += RSTART + RLENGTH - 1
    s = substr(s, RSTART + RLENGTH)
  }
  return last
}

function trimmed(s) {
  gsub(/[ \n]+/, " ", s)
  gsub(/^ | $/, "", s)
  while (substr(s, 1, 1) == "(" && closes(s, 1) == length(s)) { s = substr(s, 2, length(s) - 2); gsub(/^ | $/, "", s) }
  return s
}

function escaped(s) { gsub(/[().]/, "[&]", s); return s }

function mentions(s, word) { return (" " s " ") ~ ("[^A-Za-z0-9_.'-]" word "[^A-Za-z0-9_'-]") }

# whether any `&mut` after the call is spoken of
function mentions_after(s) { return (s " ") ~ /[.](new|exit)[^A-Za-z0-9_'-]/ }

# a part of the outcome alone: the result, a name v that a λ gives it, or what is lent, after the call
function bare(s, v) { return s !~ / / && index(" " v " ", " " s " ") || s ~ /^[A-Za-z_][A-Za-z0-9_]*[.](new|exit)$/ }

# the arguments of a word, from the first of its text on: their number, and each in argument[1], argument[2], ..
function arguments(s,   n, i) {
  split("", argument)
  while ((s = trimmed_left(s)) != "") {
    i = 0
    if (substr(s, 1, length("λ")) == "λ") i = length(s)
    while (i < length(s) && substr(s, i + 1, 1) != " ") i = index("([{", substr(s, i + 1, 1)) ? closes(s, i + 1) : i + 1
    argument[++n] = substr(s, 1, i)
    s = substr(s, i + 1)
  }
  return n
}
function trimmed_left(s) { sub(/^ +/, "", s); return s }

# a fact for one outcome of a test or a `Result` (the fact is the last argument), or for each of two
function one_case(word) { return word ~ /^((On|If|For)(Ok|Err|Some|None)|On(True|False))$/ }
function two_cases(word) { return word ~ /^Match(Result|Option|Bool)$/ }

# as far as a text shows: a fact that every outcome meets
function empty(fact, v,   i, n, left, right, word) {
  fact = trimmed(fact)
  if (fact == "⊤" || fact ~ /^Unit( \{0\})?$/) return 1
  if (fact ~ /^∥.*∥₁$/) { sub(/^∥/, "", fact); sub(/∥₁$/, "", fact); return empty(fact, v) }
  if (fact ~ /^let / && (i = outside(fact, " in "))) return empty(substr(fact, i + 4), v)
  if (substr(fact, 1, length("λ")) == "λ" && (i = index(fact, "."))) {
    left = substr(fact, length("λ") + 1, i - length("λ") - 1)
    gsub(/[(),]/, " ", left)
    return empty(substr(fact, i + 1), v " " trimmed(left))
  }
  if (i = outside(fact, "→")) {
    left = trimmed(substr(fact, 1, i - 1))
    right = trimmed(substr(fact, i + length("→")))
    return left == "⊥" || left == right || empty(right, v)
  }
  if (i = outside(fact, "↔")) return trimmed(substr(fact, 1, i - 1)) == trimmed(substr(fact, i + length("↔")))
  if (i = outside(fact, "⊎")) return empty(substr(fact, 1, i - 1), v) || empty(substr(fact, i + length("⊎")), v)
  if (i = outside(fact, "×")) return empty(substr(fact, 1, i - 1), v) && empty(substr(fact, i + length("×")), v)
  if (fact ~ /^¬/) return trimmed(substr(fact, length("¬") + 1)) == "⊥"
  word = fact
  sub(/ .*/, "", word)
  if (word != fact && (one_case(word) || two_cases(word) || word ~ /^(IsTrue|IsOkUnless)$/)) {
    n = arguments(substr(fact, length(word) + 1))
    if (one_case(word)) return n > 1 && empty(argument[n], v)
    if (word == "IsOkUnless") return n == 2 && argument[2] == "alloc_error"
    if (word == "IsTrue") {
      fact = n == 1 ? trimmed(argument[1]) : ""
      return fact == "true" || (i = outside(fact, "==")) && trimmed(substr(fact, 1, i - 1)) == trimmed(substr(fact, i + 2))
    }
    right = argument[n]
    return n > 2 && empty(argument[n - 1], v) && empty(right, v)
  }
  if (i = outside(fact, "≡")) n = length("≡")
  else if (i = outside(fact, "≤ℤ")) n = length("≤ℤ")
  else if (i = outside(fact, "≤")) n = length("≤")
  else return 0
  left = trimmed(substr(fact, 1, i - 1))
  right = trimmed(substr(fact, i + n))
  if (left == "0" && substr(fact, i, n) == "≤") return 1
  return left == right || bare(left, v) && mentions(right, escaped(left)) || bare(right, v) && mentions(left, escaped(right))
}

# one fact of a promise: what of the outcome it speaks of, and what it gives by an equation
function take(fact,   i, side, part, name, given, said) {
  fact = trimmed(fact)
  if (fact !~ /^let / && !outside(fact, "→") && !outside(fact, "↔") && !outside(fact, "⊎") && (i = outside(fact, "×"))) {
    take(substr(fact, 1, i - 1))
    take(substr(fact, i + length("×")))
    return
  }
  if (empty(fact, "result")) return
  if (i = outside(fact, "→") || outside(fact, "↔") || outside(fact, "⊎") ? 0 : outside(fact, "≡")) {
    side = given = substr(fact, 1, i - 1)
    for (part in outcome) if (part != "") { name = " " part "[.](new|exit) "; side = without(side, name) }
    side = without(side, " result ")
    gsub(/[a-z_][A-Za-z0-9_]* *=|[{};(),]/, " ", side)
    side = without(side, " record ")
    if (side !~ /^ *$/ || mentions(substr(fact, i), "result") || mentions_after(substr(fact, i))) given = ""
  }
  for (part in outcome) {
    name = part == "" ? "result" : part "[.](new|exit)"
    if (mentions(fact, name)) { outcome[part] = outcome[part] "said "; said = 1 }
    if (mentions(given, name)) outcome[part] = outcome[part] "given "
  }
  facts += said
}

# a text without a word that stands between blanks or brackets
function without(s, word) {
  gsub(/[{};(),]/, " & ", s)
  gsub(/ /, "  ", s)
  s = " " s " "
  gsub(word, " ", s)
  return s
}

# what follows `pub`: a function's head is looked at, and the rest is handed back from its body on
function public(s, told, member,   name, i, found, clause, label, wrong, given, part, clauses, before, vain) {
  if (!match(s, /^[ \n]+((const|unsafe|extern|"")[ \n]+)*fn[ \n]+[A-Za-z_][A-Za-z0-9_]*/)) return s
  name = substr(s, 1, RLENGTH)
  s = past_parameters(substr(s, RLENGTH + 1))
  sub(/.*[ \n]/, "", name)
  split("", outcome)
  i = index(s, "(")
  found = closes(s, i)
  lent(substr(s, i + 1, found - i - 1))
  s = substr(s, found + 1)
  if (s ~ /^[ \n]*->/) outcome[""] = ""
  facts = 0
  while (match(s, /[A-Za-z_][A-Za-z0-9_]*|[[({;]/)) {
    found = substr(s, RSTART, RLENGTH)
    if (found == "{" || found == ";") break
    if (found == "(" || found == "[") { s = substr(s, closes(s, RSTART) + 1); continue }
    s = substr(s, RSTART + RLENGTH)
    if (found !~ /^(ghost|requires|ensures)$/) continue
    i = index(s, "{")
    label = trimmed(substr(s, 1, i - 1))
    clause = substr(s, i + 1, closes(s, i) - i - 1)
    s = substr(s, closes(s, i) + 1)
    if (found == "requires") wrong = wrong "has a requires; "
    if (found != "ensures") continue
    clauses++
    if (label ~ /^[*]/) wrong = wrong "has an ensures* , whose text is not read; "
    gsub(/--[^\n]*/, "", clause)
    before = facts
    take(clause)
    if (facts == before) vain = vain "its clause " label " promises what every outcome meets; "
  }
  given = 1
  for (part in outcome) {
    if (outcome[part] !~ /given/) given = 0
    if (clauses && facts && outcome[part] == "") wrong = wrong "says nothing of " (part == "" ? "what it hands back" : part " after the call") "; "
  }
  if (!clauses && told != "") { given = told ~ /≡/; if (empty(told, "")) wrong = wrong "promises what every outcome meets; " }
  else if (!clauses) wrong = wrong "has no ensures; "
  else if (!facts) wrong = wrong "promises what every outcome meets; "
  else wrong = wrong vain
  sub(/; $/, "", wrong)
  if (member == "trait" && found == ";" && wrong == "") return s
  print type[depth] name "|" given "|" wrong
  return s
}

# the names of what is lent to be written: of each parameter in whose type a `&mut` stands
function lent(params,   depth, found, at, rest) {
  rest = params = params ","
  while (match(rest, /->|[][(){}<>,]/)) {
    found = substr(rest, RSTART, RLENGTH)
    at += RSTART + RLENGTH - 1
    rest = substr(rest, RSTART + RLENGTH)
    if (found == "," && !depth) { lent_by(substr(params, 1, at - 1)); params = rest; at = 0 }
    else if (found != "," && found != "->") depth += index("([{<", found) ? 1 : -1
  }
}
function lent_by(param,   name) {
  if (param !~ /&[ \n]*('[A-Za-z_]+[ \n]+)?mut[^A-Za-z0-9_]/) return
  name = param
  if (name ~ /:/) sub(/[ \n]*:.*/, "", name)
  gsub(/^[ \n]+|[ \n]+$/, "", name)
  sub(/.*[^A-Za-z0-9_]/, "", name)
  outcome[name] = ""
}

# what follows a `#[test]` or `#[cfg(test)]`: the rest behind the item
function past_item(s,   found) {
  while (match(s, /[A-Za-z_][A-Za-z0-9_]*|[[({;]/)) {
    found = substr(s, RSTART, RLENGTH)
    if (found == ";") return substr(s, RSTART + 1)
    if (found == "{") return substr(s, closes(s, RSTART) + 1)
    if (found == "(" || found == "[") s = substr(s, closes(s, RSTART) + 1)
    else s = substr(s, RSTART + RLENGTH)
    if (found ~ /^(ghost|requires|ensures)$/) s = substr(s, closes(s, index(s, "{")) + 1)
  }
  return s
}

# the type of an `impl`, by what follows that word
function type_of(s) {
  s = past_parameters(s)
  s = substr(s, 1, index(s, "{") - 1)
  sub(/[ \n]where[ \n].*/, "", s)
  sub(/.*[ \n]for[ \n]/, "", s)
  return match(s, /[A-Z][A-Za-z0-9_]*/) ? substr(s, RSTART, RLENGTH) "::" : ""
}

# the name of an `impl` of a trait, as the prover has it, and the trait; nothing for another `impl`
function trait_of(s,   params, name, whole, own_name) {
  whole = s
  s = past_parameters(s)
  s = substr(s, 1, index(s, "{") - 1)
  if (s !~ /[ \n]for[ \n]/) return ""
  sub(/[ \n]for[ \n].*/, "", s)
  params = index(s, "<") ? substr(s, index(s, "<") + 1) : ""
  sub(/<.*/, "", s)
  gsub(/[A-Za-z_0-9]+::/, "", s)
  gsub(/[^A-Za-z0-9_]/, "", s)
  # one that has the type's own name keeps its crate's before it
  own_name = type_of(whole)
  sub(/::$/, "", own_name)
  if (match(params, "[a-z_0-9]+::" own_name "([^A-Za-z0-9_]|$)")) {
    params = substr(params, 1, RSTART - 1) toupper(substr(params, RSTART, 1)) substr(params, RSTART + 1)
    sub("::" own_name, own_name, params)
  }
  gsub(/[A-Za-z_0-9]+::/, "", params)
  while (match(params, /[A-Za-z_][A-Za-z0-9_]*/)) {
    name = name toupper(substr(params, RSTART, 1)) substr(params, RSTART + 1, RLENGTH - 1)
    params = substr(params, RSTART + RLENGTH)
  }
  trait = s
  return s name
}

{ text = text $0 "\n" }
END {
  s = rest = cleaned(text)
  while (match(rest, /[^A-Za-z0-9_]trait[ \n]+[A-Za-z_0-9]+/)) {
    word = substr(rest, RSTART, RLENGTH)
    rest = substr(rest, RSTART + RLENGTH)
    sub(/.*[ \n]/, "", word)
    own[word] = 1
  }
  start = 1 # whether an item may begin here
  while (match(s, /#!?\[|[{}]|[A-Za-z_][A-Za-z0-9_]*/)) {
    word = substr(s, RSTART, RLENGTH)
    between = substr(s, 1, RSTART - 1)
    if (between ~ /[^ \n]/) start = between ~ /;[ \n]*$/
    if (word ~ /^#/) {
      s = substr(s, RSTART + RLENGTH - 1)
      word = substr(s, 2, closes(s, 1) - 2)
      s = substr(s, closes(s, 1) + 1)
      gsub(/[ \n]/, "", word)
      if (word == "test" || word == "cfg(test)") s = past_item(s)
      start = 1
      continue
    }
    s = substr(s, RSTART + RLENGTH)
    if (word == "{") {
      depth++
      type[depth] = next_type == "" ? type[depth - 1] : next_type
      members[depth] = next_members
      told[depth] = next_type = next_members = ""
    } else if (word == "}") depth--
    else if (word == "impl" && start) {
      next_type = type_of(s)
      between = trait_of(s)
      if (between != "") {
        next_members = program || trait in own || trait ~ /^(Debug|Error)$/ ? "" : "impl"
        sub(/::$/, between "::", next_type)
      }
    } else if (word == "pub" && match(s, /^[ \n]+(unsafe[ \n]+)?trait[ \n]+[A-Za-z_0-9]+/)) {
      next_type = substr(s, 1, RLENGTH)
      sub(/.*[ \n]/, "", next_type)
      next_type = next_type "::"
      next_members = "trait"
    } else if (word == "pub") s = public(s, "", "")
    else if (word == "ghost" && members[depth] != "") {
      match(s, /[A-Za-z_0-9]+/)
      word = substr(s, RSTART, RLENGTH)
      if (word ~ /^(eq|cmp|partial_cmp|output|.*_gives)$/) told[depth] = substr(s, index(s, "{") + 1, closes(s, index(s, "{")) - index(s, "{") - 1)
      if (word == "eq") told[depth] = "eq self other ≡ result"
      # the bytes that are written, where it gives any: a fact of Ok alone, so no equation of the whole outcome
      if (word == "output") told[depth] = told[depth] ~ /[^A-Za-z0-9_]Some[ \n(]/ && told[depth] !~ /[^A-Za-z0-9_]None([^A-Za-z0-9_]|$)/ ? "OnOk result (Written output)" : "⊤"
      s = substr(s, closes(s, index(s, "{")) + 1)
      word = "}"
    } else if (word == "fn" && members[depth] != "") s = public(" fn" s, told[depth], members[depth])
    start = word ~ /^([{}]|unsafe)$/
  }
}

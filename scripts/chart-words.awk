# The words of scripts/chart: what comes to a member, and what it does then.

function batch_words(id) { return id == 0 ? "empty" : "batch " id }

# A set of members, given as bits.
function members_of(bits,  m, left, words, n) {
  for (m = 0; m < 3; m++) {
    left = int(bits / 2 ^ m)
    if (left % 2) words = words (n++ == 0 ? "" : left > 1 ? ", " : " and ") m
  }
  return (n > 1 ? "members " : "member ") words
}

# A message, by the kind of its action.
function message_words(kind, slot, ballot, voted, batch, bar) {
  if (kind == 4) return "Prepare " ballot
  if (kind == 5) return "promises " ballot ", slot " slot ": " (voted ? "voted for " batch_words(batch) " at " voted : "no vote")
  if (kind == 6) return "Accept slot " slot ": " batch_words(batch)
  if (kind == 7) return "accepted slot " slot " at ballot " ballot
  return "committed: all below slot " bar
}

function arriving(e,  r) {
  r = record[e]
  return message_words(kind[r] + 3, slot[r], ballot[r], voted[r], batch[r], bar[r]) \
    (part[sent_at[e]] != part[e] ? " (from step " step[sent_at[e]] ")" : "")
}

# What happens at the member itself.
function own_event(e,  r) {
  r = record[e]
  if (kind[r] == 6) return "its timer ends: it wants to lead"
  if (kind[r] == 7) return "is given batch " batch[r]
  if (kind[r] == 8 && sub_[r] == 1) return "disk has: ballot " ballot[r] ", slot " slot[r]
  if (kind[r] == 8 && sub_[r] == 2) return "disk has: slot " slot[r] ", " batch_words(entry_batch[e]) ", at ballot " ballot[r]
  if (kind[r] == 8) return "disk has: slot " slot[r] " is committed"
  return "batch of slot " slot[r] " is carried out"
}

# Who of those that a message went to never gets it.
function lost_to(m, a,  to, n, lost, key) {
  for (to = 0; to < 3; to++) {
    if (to == m || (a[2] != to && a[2] != 255)) continue
    n++
    key = message(m, to, a[1], a[3], a[4], a[5], a[6], a[7], a[8], a[9])
    if (!(key in heard)) lost = lost " " to
  }
  if (lost == "") return ""
  return length(lost) == 2 * n ? " (never arrives)" : " (never reaches" lost ")"
}

function effect(kind_, id, words) { effects++; effect_kind[effects] = kind_; effect_batch[effects] = id; effect_words[effects] = words }

# What the member does, from the actions that are told of the record, each of a kind (say, lost, wrong, right, mark) and with the batch that it is about. That
# a ballot goes to disk is left out: the row in which the disk has it says enough.
function effects_of(e,  r, m, k, a, lost) {
  effects = 0
  r = record[e]
  m = who[e]
  if (answer[r] != 0) effect("wrong", 0, "refuses it, answer " answer[r])
  for (k = 1; k <= given[r]; k++) {
    split(gave[r, k], a, " ")
    if (a[1] == 2) effect("say", a[8], "to disk: slot " a[3] ", " batch_words(a[8]) ", at ballot " a[6])
    if (a[1] == 3) effect("mark", holds[r, a[3]], "slot " a[3] " COMMITTED: " batch_words(holds[r, a[3]]))
    if (a[1] >= 4 && a[1] <= 8) {
      lost = lost_to(m, a)
      effect(lost ~ /arrives/ ? "lost" : "say", a[1] == 6 ? a[8] : 0, "sends: " message_words(a[1], a[3], a[6], a[7], a[8], a[9]) lost)
    }
    if (a[1] == 7 && kind[r] == 8 && a[6] != ballot[r]) effect("wrong", 0, "but what it has is " batch_words(entry_batch[e]) ", at " ballot[r])
    if (a[1] == 11) effect("say", 0, "no longer leads")
    if (a[1] == 12) effect("say", a[8], "hands " batch_words(a[8]) " to its store")
  }
  told_state(e, r)
}

# What shows in the state alone: a completion that says nothing, and votes counted.
function told_state(e, r,  s) {
  s = slot[r]
  if (kind[r] == 8 && sub_[r] < 3 && !given[r] && ballot[r] < at[r, s]) effect("right", 0, "the slot is at ballot " at[r, s] ": it says nothing")
  if ((kind[r] == 4 || (kind[r] == 8 && sub_[r] == 2)) && votes[r, s] && at[r, s] == ballot[r])
    effect("say", holds[r, s], "votes for slot " s ", " batch_words(holds[r, s]) ": " members_of(votes[r, s]))
}

# Which batches a slot was committed with, as the last records tell: words, and how many they are.
function ends_with(s,  m, r, n, b, by, order_of) {
  verdict = ""
  batches = 0
  for (m = 0; m < 3; m++) {
    r = m "," told[m]
    if (status[r, s] < 3) continue
    b = holds[r, s]
    if (!(b in by)) order_of[++batches] = b
    by[b] += 2 ^ m
  }
  for (n = 1; n <= batches; n++) verdict = verdict (n > 1 ? ", and with " : "") batch_words(order_of[n]) " at " members_of(by[order_of[n]])
}

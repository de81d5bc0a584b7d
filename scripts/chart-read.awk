# What scripts/chart is given, by member and record: the order (O), the bytes of each record (R), the told text (T).

function fail(why) { print "chart: " why > "/dev/stderr"; failed = 1; exit 1 }

# The number in the eight bytes from this place of a record on; 3 is where the record's bytes begin on the line.
function number_at(place,  sum, k) {
  for (k = 7; k >= 0; k--) sum = sum * 256 + $(place + k + 3)
  return sum + 0
}

# A line of words begins a part of the run; a line of members has whose records they are.
$1 == "O" && $2 !~ /^[0-9]+$/ { parts++; heading[parts] = substr($0, 3) }
$1 == "O" && $2 ~ /^[0-9]+$/ { for (k = 2; k <= NF; k++) { events++; who[events] = $k; part[events] = parts } }

$1 == "R" {
  r = $2 "," ++received[$2]
  kind[r] = $3; peer[r] = $4; sub_[r] = $5
  slot[r] = number_at(8); trigger[r] = number_at(16); endprep[r] = number_at(24); ballot[r] = number_at(32)
  voted[r] = number_at(40); batch[r] = number_at(48); bar[r] = number_at(56)
}

$1 == "T" && $3 ~ /^[0-9]+$/ { t = $2 "," ++told[$2]; answer[t] = $4 }
$1 == "T" && $3 == "A" { gave[t, ++given[t]] = substr($0, 7) }
$1 == "T" && $3 == "S" { strict[$2] = NF == 22 }
# Of each slot after each record: ballot, status, batch, and the members whose votes the leader has counted.
$1 == "T" && $3 == "I" {
  at[t, $4] = $5; status[t, $4] = $6; holds[t, $4] = $9; votes[t, $4] = $35
}

# A message as it is known from both ends.
function message(from, to, kind, slot, trigger, endprep, ballot, voted, batch, bar) {
  return from " " to " " kind " " slot " " trigger " " endprep " " ballot " " voted " " batch " " bar
}

# Puts each record in its place in the run, and holds messages and completions to what was given before.
function order_all(  e, m, r) {
  for (e = 1; e <= events; e++) {
    m = who[e]
    r = m "," ++seen[m]
    record[e] = r
    if (!(r in kind) || !(r in answer)) fail("the order has more records of member " m " than its trace or the told text")
    if (kind[r] == 0) continue
    step[e] = ++steps
    hold(e, m, r)
    give(e, m, r)
  }
  for (m = 0; m < 3; m++) if (seen[m] != received[m] || seen[m] != told[m]) fail("the order leaves out records of member " m)
}

# Kinds of records: 1 Prepare, 2 PrepareReply, 3 Accept, 4 AcceptReply, 5 CommitNotice, 8 a log completion. A message's action has 3 more.
function hold(e, m, r,  key) {
  if (kind[r] >= 1 && kind[r] <= 5) {
    key = message(peer[r], m, kind[r] + 3, slot[r], trigger[r], endprep[r], ballot[r], voted[r], batch[r], bar[r])
    if (!(key in sent)) fail("step " step[e] ": member " m " gets what member " peer[r] " has not sent")
    heard[key] = 1
    sent_at[e] = sent[key]
  }
  if (kind[r] == 8) {
    key = m " " sub_[r] " " slot[r] " " ballot[r]
    if (!(key in written)) fail("step " step[e] ": member " m " finishes what it was not asked to write")
    entry_batch[e] = written[key]
  }
}

function give(e, m, r,  k, a, to) {
  for (k = 1; k <= given[r]; k++) {
    split(gave[r, k], a, " ")
    if (a[1] <= 3) written[m " " a[1] " " a[3] " " a[6]] = a[8]
    for (to = 0; to < 3; to++)
      if (to != m && (a[2] == to || a[2] == 255)) sent[message(m, to, a[1], a[3], a[4], a[5], a[6], a[7], a[8], a[9])] = e
  }
}

# How scripts/chart draws: a lane for each member, a row for each event, a band over each part of the run.

function escape(words) { gsub(/&/, "\\&amp;", words); gsub(/</, "\\&lt;", words); gsub(/>/, "\\&gt;", words); return words }
function out(line) { body = body line "\n" }
function lane(m) { return 240 + 365 * m }

# Colours beside the words: of the first batch that is offered, of the second, of none.
function colour(id) {
  if (!id) return "#444444"
  if (!(id in colour_of)) colour_of[id] = ++colours == 1 ? "#0072b2" : "#d55e00"
  return colour_of[id]
}

function text(x, y, words, look) { out("<text x=\"" x "\" y=\"" y "\" " look ">" escape(words) "</text>") }
function middle(x, y, words, look) { text(x, y, words, "text-anchor=\"middle\" " look) }
function box(x, y, width, height, look) { out("<rect x=\"" x "\" y=\"" y "\" width=\"" width "\" height=\"" height "\" " look "/>") }

function band(words) {
  y += 10
  box(10, y, 1140, 26, "fill=\"#e8e8e8\"")
  text(20, y + 18, words, "font-weight=\"bold\"")
  y += 34
}

# A message as it arrives: from the sender's lane to the receiver's, with its words between the sender's lane and the next.
function arrow(e,  r, from, to, way, words, ink, x) {
  r = record[e]
  from = lane(peer[r])
  to = lane(who[e])
  way = to > from ? 1 : -1
  words = arriving(e)
  ink = (kind[r] == 3 || (kind[r] == 2 && voted[r])) ? colour(batch[r]) : "#222222"
  x = from + way * 182
  box(x - 4 * length(words) - 4, y, 8 * length(words) + 8, 17, "fill=\"#ffffff\"")
  middle(x, y + 13, words, "fill=\"" ink "\"")
  y += 22
  out("<line x1=\"" from "\" y1=\"" y "\" x2=\"" (to - way * 9) "\" y2=\"" y "\" stroke=\"" ink "\" stroke-width=\"2\"/>")
  out("<path d=\"M" to " " y " l" (-way * 11) " -5 l0 10 z\" fill=\"" ink "\"/>")
  y += 6
}

function effect_look(k) {
  if (effect_kind[k] == "lost") return "font-style=\"italic\" fill=\"" colour(effect_batch[k]) "\""
  if (effect_kind[k] == "wrong") return "fill=\"#b00000\" font-weight=\"bold\""
  if (effect_kind[k] == "right") return "fill=\"#006b3c\" font-weight=\"bold\""
  return "fill=\"" colour(effect_batch[k]) "\""
}

# A message that nobody gets: a broken line from the box that ends in a cross.
function lost_arrow(m, at_y, ink,  from, way, to) {
  way = m < 2 ? 1 : -1
  from = lane(m) + way * 175
  to = from + way * 50
  out("<line x1=\"" from "\" y1=\"" at_y "\" x2=\"" to "\" y2=\"" at_y "\" stroke=\"" ink "\" stroke-width=\"2\" stroke-dasharray=\"6 4\"/>")
  out("<path d=\"M" (to - 6) " " (at_y - 6) " l12 12 m-12 0 l12 -12\" stroke=\"" ink "\" stroke-width=\"3\" fill=\"none\"/>")
}

# What happens at the member and what it does then, in a box on its lane; marks stand out.
function boxed(e, first,  x, k, height, rows) {
  rows = (first != "") + effects
  if (!rows) return
  x = lane(who[e]) - 175
  height = 18 * rows + 8
  for (k = 1; k <= effects; k++) if (effect_kind[k] == "mark") height += 8
  box(x, y, 350, height, "rx=\"5\" fill=\"#fbfbfb\" stroke=\"#999999\"")
  y += 17
  if (first != "") { text(x + 10, y, first, "font-weight=\"bold\" fill=\"" colour(batch_at(e)) "\""); y += 18 }
  for (k = 1; k <= effects; k++) {
    if (effect_kind[k] == "mark") {
      box(x + 6, y - 13, 338, 24, "rx=\"4\" fill=\"" colour(effect_batch[k]) "\"")
      text(x + 14, y + 4, effect_words[k], "fill=\"#ffffff\" font-weight=\"bold\" font-size=\"14\"")
      y += 26
    } else {
      text(x + 10, y, effect_words[k], effect_look(k))
      if (effect_kind[k] == "lost") lost_arrow(who[e], y - 4, colour(effect_batch[k]))
      y += 18
    }
  }
  y += 1
}

# The batch that is given to the member, or that its disk has.
function batch_at(e) { return kind[record[e]] == 7 ? batch[record[e]] : entry_batch[e] }

function draw_event(e) {
  middle(36, y + 13, step[e], "fill=\"#777777\"")
  effects_of(e)
  if (kind[record[e]] <= 5) { arrow(e); boxed(e, "") } else boxed(e, own_event(e))
  y += 8
}

function lane_names(  m) {
  for (m = 0; m < 3; m++) {
    box(lane(m) - 60, y, 120, 26, "rx=\"5\" fill=\"#333333\"")
    middle(lane(m), y + 18, "member " m, "fill=\"#ffffff\" font-weight=\"bold\"")
  }
  y += 26
}

# What each member has in the slot at the end, by its last record.
function draw_end(s,  m, r, b, words) {
  y += 6
  for (m = 0; m < 3; m++) {
    r = m "," told[m]
    b = holds[r, s] + 0
    words = "slot " s ": " (status[r, s] >= 3 ? batch_words(b) ", COMMITTED" : status[r, s] > 0 ? batch_words(b) ", not committed" : "nothing")
    box(lane(m) - 150, y, 300, 30, "rx=\"5\" stroke=\"" colour(b) "\" stroke-width=\"2\" fill=\"" (status[r, s] >= 3 ? colour(b) : "#ffffff") "\"")
    middle(lane(m), y + 20, words, "font-weight=\"bold\" fill=\"" (status[r, s] >= 3 ? "#ffffff" : colour(b)) "\"")
  }
  y += 44
  ends_with(s)
  box(10, y, 1140, 34, "fill=\"" (batches > 1 ? "#b00000" : "#006b3c") "\"")
  words = "The end: slot " s " is committed with " verdict ". " (batches > 1 ? "One of the two is lost." : "Nothing committed is lost.")
  text(24, y + 23, words, "fill=\"#ffffff\" font-weight=\"bold\" font-size=\"15\"")
  y += 44
}

function head(  kind_) {
  ends_with(1)
  kind_ = strict[0] ? "Strict" : "Base"
  title = kind_ " members: slot 1 is committed with " (batches > 1 ? "two batches" : "one batch")
  text(20, 34, title, "font-size=\"22\" font-weight=\"bold\"")
  text(20, 60, "From top to bottom. A row is one event at one member; an arrow is a message as it arrives. The numbers at the left count the events.")
  text(20, 80, "A batch is a group of players' saves. A slot is its place in the order, in which all members must come to have the same batch.")
  text(20, 100, "Prepare: \"I want to lead; this ballot is my number.\" promises: \"I follow you; this is what I voted for.\" Accept: \"vote for this batch.\"")
  text(20, 120, "accepted: \"I have voted.\" COMMITTED: two of three have voted for the batch, so it counts as saved and must never be another one.")
  text(20, 140, "to disk, disk has: what a member asks its disk to keep, and, some time later, that the disk has it. A line with a cross: a message is lost.")
  y = 158
}

END {
  if (failed) exit 1
  order_all()
  for (e = 1; e <= events; e++) if (kind[record[e]] == 7) colour(batch[record[e]])
  head()
  lane_names()
  top = y
  for (e = 1; e <= events; e++) {
    if (!step[e]) continue
    if (part[e] != shown) { shown = part[e]; band(heading[shown]) }
    draw_event(e)
  }
  bottom = y
  lane_names()
  draw_end(1)
  size = "width=\"1160\" height=\"" y "\""
  print "<svg xmlns=\"http://www.w3.org/2000/svg\" " size " viewBox=\"0 0 1160 " y "\" font-family=\"Helvetica, Arial, sans-serif\" font-size=\"13\">"
  print "<title>" title "</title>"
  print "<rect " size " fill=\"#ffffff\"/>"
  for (m = 0; m < 3; m++) print "<line x1=\"" lane(m) "\" y1=\"" top "\" x2=\"" lane(m) "\" y2=\"" bottom "\" stroke=\"#bbbbbb\" stroke-width=\"2\"/>"
  printf "%s</svg>\n", body
}

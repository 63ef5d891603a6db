# Draws a ladder. Standard input: line one of the run file, then the rows and the verdict as the program printed them.
# awk -v form=draw: as text; -v form=svg: as a picture. What does not fit together is not drawn: a message, and status 1.
#
# The rounds are not in the rows. A round is over when the window is full or the end is reached; then the answers come in order. A missing answer is a
# timeout, else a NAK begins the retry, else all is ACKed and the balance point of a read moves, with which its retries count from 0 again.

BEGIN {
  FS = "\t"
  words[2] = "Transfer Ended"
  words[20] = "Data Offset Error"
  words[21] = "Too Much Data"
  words[22] = "Incorrect Data Length"
  words[28] = "NAK Received"
  words[29] = "ACK/NAK Timeout"
  answer["ok"] = answer["noack"] = "ACK"
  answer["bad"] = answer["nonak"] = "NAK"
  answer["lost"] = ""
  frames = faults = parted = rounds = retries = out = next_offset = balance = again = used_up = over = wrong = 0
  inside = 44 # of the text: columns between the lifelines
  left = 190 # of the picture: where the lifelines are, and how wide it is
  right = 640
  width = 900
}

NR == 1 {
  if (NF != 5 || $1 !~ /^(read|write)$/ || !numbers(2, 5) || $2 < 1 || $4 < 1) misfit()
  write = $1 == "write"
  count = $2 + 0
  window = $4 + 0
  limit = $5 + 0
  head($1 ", " many(count, "byte") ", " $3 " in a frame, window " window ", retry limit " limit)
  next
}

over { misfit() }

$1 == "delivered" || $1 == "failed" {
  if (NF != 5 || !numbers(2, 5) || $3 + 0 != frames || $4 + 0 != faults || out > 0) misfit()
  if ($1 == "failed" ? !used_up : again || next_offset != count) misfit()
  over = 1
  foot($1, $1 ": " ($1 == "failed" ? named($2) ", " : "") many($3, "frame") ", " many($4, "fault") ", " $5 " of " many(count, "byte") " filled")
  next
}

{
  if (NF != 6 || !numbers(1, 4) || !($5 in answer) || $6 !~ /^(stored|discarded|none|[0-9]+)$/ || used_up) misfit()
  if ($1 + 0 != frames + 1 || $2 + 0 != next_offset || $4 + 0 != again || $3 < 1 || $2 + $3 > count) misfit()
  if (out == 0) {
    rounds++
    round_starts("round " rounds ": " (again ? "again " : "") "from " next_offset)
  }
  frames++
  faults += $5 != "ok"
  fates[++out] = $5
  frame(frames, "offset " ($2 + 0) ", " many($3, "byte") ", CDP " again, again, $5, named($6))
  again = 0
  next_offset = $2 + $3
  if (out == window || next_offset == count) round_ends()
}

END {
  if (wrong) exit 1
  if (!over) misfit()
  if (form == "svg") svg_print()
}

function misfit() {
  if (!wrong) print "line one and the rows do not fit together at line " NR | "cat >&2"
  wrong = 1
  exit 1
}

function numbers(from, to, i) {
  for (i = from; i <= to; i++) if ($i !~ /^[0-9]+$/) return 0
  return 1
}

function many(n, what) { return (n + 0) " " what (n + 0 == 1 ? "" : "s") }

function named(number) { return number in words ? number " " words[number] : number }

function round_ends(i, naks, missing, why) {
  naks = missing = 0
  for (i = 1; i <= out; i++) {
    if (fates[i] == "ok" || fates[i] == "bad") {
      answers(frames - out + i, answer[fates[i]], 1)
    } else {
      missing = 1
      if (answer[fates[i]] != "") answers(frames - out + i, answer[fates[i]], 0)
    }
    if (fates[i] == "bad") naks = 1
  }
  out = 0
  if (naks || missing) {
    why = !missing ? "NAK" : naks ? "NAK, then timeout" : "timeout"
    again = 1
    next_offset = balance
    used_up = ++retries > limit
    round_ends_with("bad", why ": " (!used_up ? "retry " retries " of " limit : limit > 0 ? "retry limit " limit " used up" : "retries are off"))
  } else if (write) {
    round_ends_with("good", "all ACKed" (limit > 0 && next_offset < count ? ": a retry still returns to 0" : ""))
  } else {
    balance = next_offset
    retries = 0
    round_ends_with("good", "all ACKed: balance point " balance)
  }
}

# ---- the parts of a drawing: a text is printed at once, a picture kept in `parts`, for its height stands in front ----

function head(title) {
  if (form == "svg") {
    svg_head(title)
    return
  }
  print title
  print "== CDP one, .. ACK or NAK, x lost, # damaged\n"
  names(write ? "initiator" : "target", write ? "target" : "initiator")
  names("sender", "receiver")
  columns()
  if (write) {
    between("  XFER_RDY for the whole transfer,")
    between("  ACKed before the first frame")
  }
}

function round_starts(what) {
  if (form == "svg") svg_round_starts(what)
  else between("  " what)
}

function frame(number, what, cdp, fate, receiver, text, sign, room) {
  if (form == "svg") {
    svg_frame(number, what, cdp, fate, receiver)
    return
  }
  sign = cdp ? "=" : "-"
  text = sign sign " " what " "
  room = inside - length(text)
  if (fate == "lost") text = text of(room - 6, sign) "x" of(5, " ")
  else if (answer[fate] == "NAK") text = text of(room - 5, sign) "#" of(3, sign) ">"
  else text = text of(room - 1, sign) ">"
  printf "%6d  |%s|  %-6s %s\n", number, text, fate, receiver
}

# An answer on its way back; arrives is 0 where it is lost.
function answers(number, what, arrives, text) {
  if (form == "svg") {
    svg_answers(number, what, arrives)
    return
  }
  text = " " what " of " number " .."
  between((arrives ? "<" : "     x") of(inside - length(text) - (arrives ? 1 : 6), ".") text)
}

function round_ends_with(kind, what) {
  if (form == "svg") {
    svg_round_ends(kind, what)
    return
  }
  between("  " what)
  between("")
}

function foot(kind, what) {
  if (form == "svg") svg_foot(kind, what)
  else print "\n" what
}

# ---- text ----

function of(times, sign, s) {
  s = ""
  while (times-- > 0) s = s sign
  return s
}

function between(s) { printf "        |%-" inside "s|\n", s }

# The first line with lifelines names the columns behind them.
function columns() { printf "        |%s|  %-6s %s\n", of(inside, " "), "fate", "receiver" }

# Each name with its middle over its lifeline.
function names(a, b, s) {
  s = of(8 - int(length(a) / 2), " ") a
  print s of(9 + inside - int(length(b) / 2) - length(s), " ") b
}

# ---- picture ----

function put(s) { parts[++parted] = s }

function words_at(x, y, class, s) { put("<text x=\"" x "\" y=\"" y "\" class=\"" class "\">" s "</text>") }

function line(x1, y1, x2, y2, class) { put("<line x1=\"" x1 "\" y1=\"" y1 "\" x2=\"" x2 "\" y2=\"" y2 "\" class=\"" class "\"/>") }

# The point of an arrow that ends at x, y; to the right for step 1, to the left for -1.
function point(x, y, step, class, size) {
  size = class ~ /cdp/ ? 8 : 5
  put("<path d=\"M" x " " y " l" (-2.2 * size * step) " " (-size) " v" (2 * size) " z\" class=\"point " class "\"/>")
}

function cross(x, y) { put("<path d=\"M" (x - 6) " " (y - 6) " l12 12 m0 -12 l-12 12\" class=\"cross\"/>") }

function svg_head(title) {
  drawing_title = title
  words_at(20, 34, "title", title)
  words_at(20, 56, "small", "Thick arrow: CDP one. Dashed arrow: ACK or NAK. Cross: lost. Zigzag: damaged.")
  words_at(left, 88, "name", write ? "initiator" : "target")
  words_at(left, 105, "under", "sender")
  words_at(right, 88, "name", write ? "target" : "initiator")
  words_at(right, 105, "under", "receiver")
  words_at(right + 16, 126, "small", "fate")
  words_at(right + 76, 126, "small", "receiver")
  down = 122
  if (write) {
    down += 10
    words_at((left + right) / 2, down, "label", "XFER_RDY for the whole transfer, ACKed before the first frame")
  }
}

function svg_round_starts(what, at) {
  down += 10
  band_top = down
  at = index(what, ": ")
  words_at(16, down + 22, "round", substr(what, 1, at - 1))
  words_at(16, down + 40, "small", substr(what, at + 2))
  down += 28
}

function svg_frame(number, what, cdp, fate, receiver, class, end, drop) {
  class = "frame" (cdp ? " cdp" : "") (fate == "lost" ? " lost" : answer[fate] == "NAK" ? " damaged" : "")
  end = fate == "lost" ? left + int((right - left) * 0.8) : right
  drop = fate == "lost" ? 6 : 8
  put("<g><title>" number ": " what ", " fate ", " receiver "</title>")
  words_at(left - 12, down + 5, "number", number)
  words_at((left + right) / 2 - 20, down - 3, "label" (cdp ? " strong" : ""), what)
  line(left, down, end, down + drop, class)
  if (fate == "lost") {
    cross(end, down + drop)
  } else {
    point(end, down + drop, 1, (cdp ? "cdp" : "") (answer[fate] == "NAK" ? " wrong" : ""))
    if (answer[fate] == "NAK") put("<path d=\"M" (right - 130) " " (down + 6) " l5 -8 l6 16 l6 -16 l5 8\" class=\"zigzag\"/>")
  }
  words_at(right + 16, down + 12, fate == "ok" ? "fate" : "fate wrong", fate)
  words_at(right + 76, down + 12, receiver ~ /^[0-9]/ ? "receiver wrong" : "receiver " receiver, receiver)
  put("</g>")
  down += 28
}

function svg_answers(number, what, arrives, end) {
  end = arrives ? left : left + int((right - left) * 0.2)
  line(right, down, end, down + (arrives ? 8 : 6), "answer" (what == "NAK" ? " nak" : ""))
  words_at(right - 14, down - 3, "answer_label" (what == "NAK" ? " nak_label" : ""), what " of " number)
  if (arrives) point(left, down + 8, -1, what == "NAK" ? "wrong" : "")
  else cross(end, down + 6)
  down += 22
}

function svg_round_ends(kind, what) {
  down += 4
  put("<circle cx=\"" left "\" cy=\"" down "\" r=\"6\" class=\"" kind "\"/>")
  words_at(left + 14, down + 5, "note " kind "_note", what)
  down += 16
  bands[rounds] = "<rect x=\"8\" y=\"" band_top "\" width=\"" (width - 16) "\" height=\"" (down - band_top) "\" rx=\"6\" class=\"band\"/>"
}

function svg_foot(kind, what) {
  down += 12
  lifelines = "<path d=\"M" left " 112 V" down " M" right " 112 V" down "\" class=\"lifeline\"/>"
  put("<rect x=\"8\" y=\"" down "\" width=\"" (width - 16) "\" height=\"40\" rx=\"6\" class=\"" kind "\"/>")
  words_at(width / 2, down + 26, "verdict", what)
  down += 52
}

function svg_print(i) {
  print "<svg xmlns=\"http://www.w3.org/2000/svg\" width=\"" width "\" height=\"" down "\" viewBox=\"0 0 " width " " down "\" role=\"img\">"
  print "<title>" drawing_title "</title>"
  print "<style>"
  print "text { font-family: sans-serif; font-size: 14px; fill: #222 }"
  print ".title { font-size: 19px; font-weight: bold } .small { font-size: 12px; fill: #555 }"
  print ".name, .under, .label, .verdict { text-anchor: middle } .name { font-weight: bold; font-size: 16px } .under { font-size: 12px; fill: #555 }"
  print ".label { font-size: 13px } .strong { font-weight: bold; fill: #0b4fb3 } .round { font-weight: bold } .number, .answer_label { text-anchor: end }"
  print ".answer_label { font-size: 11px; fill: #555 } .nak_label, .wrong { fill: #b3261e; font-weight: bold } .discarded, .none { fill: #777 }"
  print ".lifeline { stroke: #222; stroke-width: 2 } .band { fill: #f3f5f8 } line, .cross, .zigzag { fill: none; stroke: #222; stroke-width: 1.6 }"
  print ".point { fill: #222 } .point.cdp { fill: #0b4fb3 } .point.wrong { fill: #b3261e } .frame.cdp { stroke: #0b4fb3; stroke-width: 4 } .frame.lost, .frame.damaged, .cross, .zigzag { stroke: #b3261e }"
  print ".cross, .zigzag { stroke-width: 2.6 } .answer { stroke-dasharray: 5 4; stroke: #555; stroke-width: 1.3 } .answer.nak { stroke: #b3261e }"
  print ".bad { fill: #b3261e } .good { fill: #22713a } .bad_note { fill: #b3261e; font-weight: bold } .good_note { fill: #22713a }"
  print ".delivered { fill: #22713a } .failed { fill: #b3261e } .verdict { fill: #fff; font-weight: bold; font-size: 16px }"
  print "</style>"
  print "<rect width=\"" width "\" height=\"" down "\" fill=\"#fff\"/>"
  for (i = 1; i <= rounds; i++) print bands[i]
  print lifelines
  for (i = 1; i <= parted; i++) print parts[i]
  print "</svg>"
}

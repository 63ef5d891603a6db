# Holds a drawing against its ladder, apart from the script that draws: awk -v form=draw|svg -f drawn.awk LADDER DRAWING. Prints what is wrong, if anything.
# An arrow for each row, in order, with its number, offset, bytes, CDP, fate and receiver; an answer for each frame that came, behind it, in order;
# rounds numbered from 1; a retry for each CDP of one, and one more in a failure; the verdict last. The direction and the limit are those of its title.

FILENAME == ARGV[1] {
  n = split($0, f, "\t")
  if (n == 5) {
    verdict = f[1] == "failed" ? "failed: " f[2] " " : "delivered: "
    failed = f[1] == "failed"
    tail = f[3] " frame" (f[3] == 1 ? "" : "s") ", " f[4] " fault" (f[4] == 1 ? "" : "s") ", " f[5] " of "
    next
  }
  rows++
  what[rows] = "offset " f[2] ", " f[3] " byte" (f[3] == 1 ? "" : "s") ", CDP " f[4]
  cdp[rows] = f[4]
  fate[rows] = f[5]
  receiver[rows] = f[6]
  after[rows] = f[2] + f[3]
  ones += f[4]
  if (f[5] != "lost") due[++dues] = rows
  next
}

titled == "" && match($0, /(read|write), [0-9]+ bytes?, .* retry limit [0-9]+/) {
  titled = substr($0, RSTART, RLENGTH)
  direction = substr(titled, 1, index(titled, ",") - 1)
  sub(/.* /, "", titled) # the limit is left
}

form == "draw" && FNR == 2 && !(/== CDP one/ && /\.\. ACK or NAK/ && /x lost/ && /# damaged/) { wrong("no legend") }

form == "draw" {
  if (FNR > 4 && /\|/ && (substr($0, 9, 1) != "|" || substr($0, 54, 1) != "|")) wrong("a lifeline is broken")
  if ($0 != "") last = $0
  if (substr($0, 9, 1) != "|") next
  inner = substr($0, 10, 44)
  if (substr($0, 1, 8) ~ /[0-9]/) {
    sign = substr(inner, 1, 1)
    match(inner, /offset [0-9]+, [0-9]+ bytes?, CDP [01]/)
    shape = inner ~ />$/ ? (inner ~ /#/ ? "damaged" : "whole") : inner ~ /[-=]x +$/ ? "lost" : "?"
    split(substr($0, 55), word, " ")
    arrow(substr($0, 1, 8) + 0, substr(inner, RSTART, RLENGTH), sign == "=" ? 1 : sign == "-" ? 0 : "?", shape, word[1], word[2])
  } else if (inner ~ / of [0-9]+ \.\.$/) {
    split(substr(inner, match(inner, /(ACK|NAK) of/)), word, " ")
    reply(word[3] + 0, word[1], inner ~ /^</ ? 1 : inner ~ /^ +x/ ? 0 : "?")
  } else if (inner ~ /^  round/) {
    split(inner, word, "[ :]+")
    round_of(word[3])
  } else {
    note(inner)
  }
}

# The picture has an element on each line, those of a frame inside <g>.
form == "svg" {
  opened += gsub(/<[a-z]/, "&")
  closed += gsub(/<\/|\/>/, "&")
  if (/<text /) last = inside()
  if (/^<g>/) {
    in_group = 1
    number = label = bold = shape = its_fate = its_receiver = ""
  } else if (in_group && /class="number"/) number = inside()
  else if (in_group && /class="label/) { label = inside(); bold = /strong/ }
  else if (in_group && /class="frame/) { shape = / lost"/ ? "lost" : / damaged"/ ? "damaged" : "whole"; if (/ cdp/ != bold) wrong("CDP not drawn as it is said"); lines++ }
  else if (in_group && /class="cross"/ && shape != "lost") wrong("a cross at a frame that is not lost")
  else if (in_group && /class="fate/) its_fate = inside()
  else if (in_group && /class="receiver/) { split(inside(), word, " "); its_receiver = word[1] }
  else if (/^<\/g>/) { in_group = 0; arrow(number + 0, label, bold, shape, its_fate, its_receiver) }
  else if (/class="answer[ "]/) arrives = /x2="190"/
  else if (/class="answer_label/) { split(inside(), word, " "); reply(word[3] + 0, word[1], arrives) }
  else if (/class="round"/) { split(inside(), word, " "); round_of(word[2]) }
  else if (/class="note/) note(inside())
}

END {
  if (arrows != rows) wrong(arrows + 0 " arrows for " rows " rows")
  if (form == "svg" && lines != rows) wrong(lines + 0 " lines for " rows " rows")
  if (form == "svg" && opened != closed) wrong("elements are not closed")
  if (replies != dues) wrong(replies + 0 " answers for " dues + 0 " frames that came")
  if (retried != ones + failed) wrong(retried + 0 " retries for " ones + 0 " frames with CDP one")
  if (noted != rounds || rounds == 0) wrong("a round does not end")
  if (index(last, verdict) != 1 || !index(last, tail)) wrong("the verdict is not last")
}

function inside() { match($0, />[^<]*</); return substr($0, RSTART + 1, RLENGTH - 2) }

function arrow(number, label, thick, shape, its_fate, its_receiver, want) {
  arrows++
  want = fate[arrows] == "lost" ? "lost" : fate[arrows] ~ /^(bad|nonak)$/ ? "damaged" : "whole"
  if (number != arrows || label != what[arrows] || thick != cdp[arrows] || shape != want) wrong("arrow " arrows " is " number ", " label ", " shape)
  if (its_fate != fate[arrows] || its_receiver != receiver[arrows]) wrong("arrow " arrows " has " its_fate ", " its_receiver)
  if (thick && rounds < 2) wrong("CDP one in the first round")
}

function reply(number, word, arrives, its) {
  its = fate[due[++replies]]
  if (number != due[replies] || number > arrows) wrong("an answer of " number " is not in its place")
  if (word != (its ~ /^(bad|nonak)$/ ? "NAK" : "ACK") || arrives != (its ~ /^(ok|bad)$/)) wrong("the answer of " number " is " word)
}

function round_of(number) {
  if (number != ++rounds) wrong("round " rounds " is called " number)
  if (rounds != noted + 1) wrong("round " rounds " begins before the last one ends")
  round_from = arrows
}

# What ends a round follows from the fates in it alone.
function note(s, i, naks, missing, want) {
  if (s ~ /^ *$/ || (rounds == 0 && s ~ /XFER_RDY for the whole|ACKed before the first/)) return
  noted++
  for (i = round_from + 1; i <= arrows; i++) {
    if (fate[i] == "bad") naks = 1
    if (fate[i] ~ /^(noack|nonak|lost)$/) missing = 1
  }
  want = missing ? (naks ? "NAK, then timeout:" : "timeout:") : naks ? "NAK:" : "all ACKed" acked() " *$"
  if (s !~ "^ *" want) wrong("round " rounds " ends with '" s "'")
  if (s !~ /all ACKed/) retried++
}

# A read moves its balance point; a write with retries on returns to 0 as long as there are frames to come.
function acked() { return direction == "read" ? ": balance point " after[arrows] : titled + 0 > 0 && arrows < rows ? ": a retry still returns to 0" : "" }

function wrong(s) { print s }

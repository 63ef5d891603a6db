# Says why a line of a run file is refused. Standard input: its bytes as decimal numbers; -v number: the line's number.

BEGIN {
  for (i = 1; i < 256; i++) character[i] = sprintf("%c", i)
  bytes = feed = zero = odd = 0
  longest = 200 # more of a line is not looked at
  text = shown = ""
  line_one = "read or write, byte count, data size, window and retry limit, separated by single tabs"
  odd_byte = " a byte that is not printable ASCII"
  split(",byte count,data size,window,retry limit", names, ",")
  split(",1,4,1,0", least, ",")
  split(",65536,1024,64,15", most, ",")
}

{
  for (i = 1; i <= NF; i++) {
    if ($i == 10) {
      feed = 1
      continue
    }
    bytes++
    if (bytes > longest) continue
    if ($i == 0) zero = 1
    if (!odd && ($i > 126 || ($i < 32 && $i != 9))) odd = bytes
    text = text ($i == 0 ? "?" : character[$i])
    if (bytes <= 60) shown = shown visible($i + 0)
  }
}

END {
  print "refused: line " number " does not fit: " why()
  if (bytes > 0) print "the line is \047" shown (bytes > 60 ? "\047 and more" : "\047")
}

function visible(c) {
  if (c == 9) return "\\t"
  if (c == 13) return "\\r"
  if (c == 92) return "\\\\"
  if (c < 32 || c > 126) return sprintf("\\%03o", c)
  return character[c]
}

function why() {
  if (bytes == 0 && !feed) return "the input is empty; line one is " line_one
  if (bytes == 0) return "it is empty; an empty line is refused at the end of the file too"
  if (substr(text, 1, 3) == character[239] character[187] character[191]) return "it starts with a byte order mark, three bytes that some editors write; save the file without it"
  if (bytes <= longest && substr(text, bytes, 1) == "\r") return "it ends with a carriage return; lines end with a line feed alone"
  if (index(text, "\r")) return "there is a carriage return inside it; lines end with a line feed alone"
  if (zero) return "there is a zero byte in it; save the file as plain text"
  if (bytes > longest) return "it is too long, " bytes " bytes"
  if (index(text, "#")) return "there is a # in it; comments are not allowed"
  return number == 1 ? why_line_one() : why_fate()
}

function why_fate(low) {
  low = tolower(text)
  gsub(/[ \t]/, "", low)
  if (odd) return (substr(text, 1, odd - 1) ~ /^(ok|noack|bad|nonak|lost)[ \t]*$/ ? "behind the fate there is" : "there is") odd_byte
  if (text ~ /^[ \t]+$/) return "there are only blanks or tabs in it"
  if (low ~ /^(ok|noack|bad|nonak|lost)$/) {
    if (text ~ /^[ \t]/) return "there is a blank or tab in front of the fate"
    if (text ~ /[ \t]$/) return "there is a blank or tab behind the fate"
    if (text !~ /[ \t]/) return "fates are written in lower case: " low
  }
  if (text ~ /^(read|write)[ \t]/) return "it looks like line one again; a file has one run"
  if (text ~ /[ \t]/) return "there is more than one word in it; each line has one fate"
  return "this is no fate; fates are ok, noack, bad, nonak and lost"
}

function why_line_one(n, i, fields, empty, wrong) {
  n = split(text, fields, "\t")
  if (index(text, "\\t")) return "there is a backslash and a t where a tab belongs; printf makes tabs"
  if (index(text, " ")) {
    if (text ~ /^ /) return "there is a blank in front of it"
    if (text ~ / $/) return "there is a blank at its end"
    if (n == 1) return "there are blanks instead of tabs between its fields"
    return "there is a blank in it; between two fields there is one tab and nothing else"
  }
  if (text ~ /^(ok|noack|bad|nonak|lost)$/) return "it is a fate; line one is " line_one
  if (odd && (n != 5 || odd <= length(fields[1]))) return "there is" odd_byte
  for (i = 1; i <= n; i++) if (fields[i] == "") empty = " (field " i " is empty)"
  if (n != 5) return "it has " n (n == 1 ? " field" : " fields") empty ", not 5: " line_one
  if (fields[1] == "") return "its first field is empty; it is read or write"
  if (fields[1] !~ /^(read|write)$/) {
    if (tolower(fields[1]) ~ /^(read|write)$/) return "read and write are written in lower case"
    return "its first word is neither read nor write"
  }
  for (i = 2; i <= 5; i++) {
    wrong = why_number(fields[i], i)
    if (wrong != "") return "the " names[i] " " wrong
  }
  return "it is not a line one"
}

# A number can have any length: compared by its length first.
function why_number(s, i) {
  if (s == "") return "is empty"
  if (s ~ /^[-+]/) return "has a sign; only digits are taken"
  if (s !~ /^[0-9]+$/) return "is not a decimal number; only digits are taken"
  if (s ~ /^0[0-9]/) return "has a leading zero"
  if (length(s) > 5 || s + 0 < least[i] + 0 || s + 0 > most[i] + 0) return "is out of its range, " least[i] " to " most[i]
  if (i == 3 && s % 4 != 0) return "is not a multiple of four"
  return ""
}

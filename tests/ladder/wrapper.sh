# Part of tests/ladder/run: the wrapper around the program, in a copy of what ./install installs, with the program under test.

tree="$tmp/a tree"
mkdir -p -- "$tree/bin" "$tree/libexec/ssp" "$tree/share/ssp"
cp -- "$root/ladder" "$tree/bin/"
cp -- "$root"/share/* "$tree/share/ssp/"
cp -- "$prog" "$tree/libexec/ssp/ladder"
wrapper=$tree/bin/ladder
paper=$examples/paper.run
mkdir -- "$tmp/temporary"
export TMPDIR=$tmp/temporary

# wrapped ARGUMENT...: the wrapper, for at most 20 seconds.
wrapped() {
  status=0
  timeout 20 "$wrapper" "$@" >"$tmp/out" 2>"$tmp/err" || status=$?
}

# came NAME STATUS WANTED ERROR: that status; standard output is that file; standard error has that text, or is empty where there is none, and all its
# lines are the wrapper's (or of rt below).
came() {
  local name=$1
  if ((status != $2)); then
    fail "$name: status $status, not $2"
  elif ! cmp -s -- "$3" "$tmp/out"; then
    fail "$name: the output differs"
    diff -a -u --label expected --label printed -- "$3" "$tmp/out" | head -n 40 || true
  elif { [[ -z $4 && -s $tmp/err ]]; } || { [[ -n $4 ]] && ! grep -aqF -e "$4" -- "$tmp/err"; } || grep -aqvE '^(ladder: |use: |no proof$)' -- "$tmp/err"; then
    fail "$name: standard error is '$(head -n 3 -- "$tmp/err")', not '$4'"
  else
    pass
  fi
}

# ---- every pair: the program's output, the status, the reason of a refusal (worked from the run file, in `reasons`) ----

for file in "$here"/*.run "$examples"/*.run; do
  name=$(basename -- "$file" .run)
  ladder=${file%.run}.ladder
  [[ -f $ladder ]] || continue # reported above
  wrapped "$file"
  if [[ $(head -c 7 -- "$ladder") != refused ]]; then
    came "wrapper: $name" 0 "$ladder" ''
    continue
  fi
  reason=$(awk -F '\t' -v "name=$name" '$1 == name { print $2 }' "$here/reasons")
  if [[ -z $reason ]]; then
    fail "$name: not in reasons"
    continue
  fi
  IFS=$'\t' read -r _ line <"$ladder"
  came "wrapper: $name" 1 "$ladder" "ladder: refused: line $line does not fit: "
  if grep -aqF -e "$reason" -- "$tmp/err"; then pass; else fail "$name: the reason is '$(head -n 1 -- "$tmp/err")', not '$reason'"; fi
done

wrapped <"$here/refused_size_6.run"
came 'a refusal on standard input' 1 "$here/refused_size_6.ladder" "the line is 'read\\t10\\t6\\t3\\t1'"
wrapped "$here/refused_backslash_t.run"
came 'a backslash is shown apart from a tab' 1 "$here/refused_backslash_t.ladder" "the line is 'read\\\\t10\\\\t4\\\\t3\\\\t1'"
printf 'read\t4\t4\t1\t1\nok\r\n' >"$tmp/odd"
printf 'refused\t2\n' >"$tmp/want"
wrapped "$tmp/odd"
came 'a carriage return is shown' 1 "$tmp/want" "the line is 'ok\\r'"
printf 'read\t4\t4\t1\t1\na\0\\\303\n' >"$tmp/odd"
wrapped "$tmp/odd"
came 'odd bytes are shown' 1 "$tmp/want" "the line is 'a\\000\\\\\\303'"
printf 'refused\t0\n' >"$tmp/want"
padded 65537 >"$tmp/over"
wrapped "$tmp/over"
came 'too long an input' 1 "$tmp/want" 'the input is too long, more than 65536 bytes'
status=0
yes ok 2>/dev/null | timeout 20 "$wrapper" >"$tmp/out" 2>"$tmp/err" || status=$?
came 'endless input' 1 "$tmp/want" 'the input is too long'
printf 'refused\t1\n' >"$tmp/want"
printf '%65536s' '' >"$tmp/long_line"
wrapped "$tmp/long_line"
came 'too long a line' 1 "$tmp/want" 'it is too long, 65536 bytes'
wrapped "$tmp/full"
printf '%s\n' "$one_frame" >"$tmp/want"
came 'the longest input' 0 "$tmp/want" ''

# ---- drawings: of every pair; those worked by hand, byte for byte ----

drawings=0

# headed FILE: the drawing shows line one and names both ends; that of a write also its XFER_RDY.
headed() {
  local direction count size window limit text
  IFS=$'\t' read -r direction count size window limit <"$1" || true
  text=$(cat -- "$tmp/out")
  count="$count bytes"
  [[ $text == *"$direction, ${count/#1 bytes/1 byte}, $size in a frame, window $window, retry limit $limit"* ]] || return 1
  if [[ $direction == read ]]; then
    [[ $text == *target*initiator* && $text != *XFER_RDY* ]]
  else
    [[ $text == *initiator*target*'XFER_RDY for the whole transfer,'*'ACKed before the first frame'*'round 1'* ]]
  fi
}

# drawn FILE: both drawings of it against the ladder beside it.
drawn() {
  local file=$1 name=${1#"$root"/} ladder=${1%.run}.ladder drawing=${1%.run}.drawing form
  if [[ ! -f $ladder || $(head -c 7 -- "$ladder") == refused ]]; then return; fi
  for form in draw svg; do
    wrapped "--$form" "$file"
    if ((status != 0)) || [[ -s $tmp/err ]]; then
      fail "--$form $name: status $status, '$(head -n 1 -- "$tmp/err")'"
      continue
    fi
    awk -v "form=$form" -f "$here/drawn.awk" "$ladder" "$tmp/out" >"$tmp/wrong"
    if [[ -s $tmp/wrong ]]; then
      fail "--$form $name: $(head -n 1 -- "$tmp/wrong")"
    elif ! headed "$file"; then
      fail "--$form $name: its head"
    else
      pass
    fi
    if [[ $form == draw && -f $drawing ]]; then
      drawings=$((drawings + 1))
      matches "drawing of $name" "$drawing"
    fi
  done
}
for file in "$here"/*.run "$examples"/*.run; do drawn "$file"; done
by_hand=$(find "$here" "$examples" -name '*.drawing' | wc -l)
if ((drawings > 0 && drawings == by_hand)); then pass; else fail "$drawings of $by_hand drawings compared"; fi
wrapped --svg "$examples/acks_slide.run"
matches 'docs/ladder.svg' "$root/docs/ladder.svg"
wrapped --draw <"$paper"
came '--draw of standard input' 0 "$examples/paper.drawing" ''
wrapped "$paper" --draw
came '--draw behind the file' 0 "$examples/paper.drawing" ''
for form in draw svg; do
  wrapped "--$form" "$here/refused_size_6.run"
  came "--$form of a refused run" 1 /dev/null 'not a multiple of four'
done
# A long ladder, with frame numbers of five digits.
fit $'read\t65536\t4\t64\t15' ok ok ok ok ok ok ok ok ok ok ok lost >"$tmp/large"
call "$tmp/large"
cp -- "$tmp/out" "$tmp/large.ladder"
for form in draw svg; do
  wrapped "--$form" "$tmp/large"
  awk -v "form=$form" -f "$here/drawn.awk" "$tmp/large.ladder" "$tmp/out" >"$tmp/wrong"
  if ((status == 0)) && [[ ! -s $tmp/wrong ]]; then pass; else fail "--$form of a long ladder: $(head -n 1 -- "$tmp/wrong")"; fi
done

# ---- help, wrong use ----

wrapped --help
came '--help' 0 "$root/share/ladder.help" ''
wrapped -h
came '-h' 0 "$root/share/ladder.help" ''
for word in --draw --svg --help read write ok noack bad nonak lost 65,536 1,024 64 15 stored discarded none delivered failed refused 28 29 comments \
  'single tabs' 'CHANGING DATA POINTER' 'also if the verdict is'; do
  for file in share/ladder.help man/ladder.1; do
    # a man page has its hyphens as \-
    if sed 's/\\-/-/g' "$root/$file" >"$tmp/text" && grep -qwe "$word" -- "$tmp/text"; then pass; else fail "$file does not say $word"; fi
  done
done
for option in draw svg; do
  if grep -q -- "^  --$option  " "$root/share/ladder.help"; then pass; else fail "the help does not describe --$option"; fi
  if grep -qxF -- ".B \\-\\-$option" "$root/man/ladder.1"; then pass; else fail "the man page does not describe --$option"; fi
done
# misused NAME ERROR ARGUMENT...
misused() {
  local name=$1 error=$2
  shift 2
  wrapped "$@"
  came "$name" 2 /dev/null "$error"
  if grep -qF 'use: ladder [--draw | --svg] [FILE]' "$tmp/err"; then pass; else fail "$name: the use is not shown"; fi
}
misused 'two files' 'ladder: only one FILE is allowed, 2 given' "$paper" "$paper"
misused 'an unknown option' 'unknown option --drawn' --drawn "$paper"
misused 'two options' 'ladder: only one option is allowed' --draw --svg "$paper"
misused 'a hyphen for standard input' "'-' is not allowed; without FILE, standard input is read" -
for options in '--draw --help' '--help --svg' '-h --draw --svg'; do
  # shellcheck disable=SC2086
  wrapped $options "$paper" "$paper"
  came "$options" 0 "$root/share/ladder.help" ''
done
cp -- "$paper" "$tmp/--svg"
status=0
(cd -- "$tmp" && exec timeout 20 "$wrapper" -- --svg) >"$tmp/out" 2>"$tmp/err" || status=$?
came 'a file that looks like an option' 0 "$examples/paper.ladder" ''
cp -- "$paper" "$tmp/-"
status=0
(cd -- "$tmp" && exec timeout 20 "$wrapper" -- -) >"$tmp/out" 2>"$tmp/err" || status=$?
came 'a file that is called -' 0 "$examples/paper.ladder" ''

# ---- nothing is lost silently ----

# fails NAME ERROR COMMAND...: status 1, nothing on standard output, that text on standard error.
fails() {
  local name=$1 error=$2
  shift 2
  status=0
  timeout 20 "$@" >"$tmp/out" 2>"$tmp/err" || status=$?
  came "$name" 1 /dev/null "$error"
}
for option in '' --draw --svg --help; do
  status=0
  # shellcheck disable=SC2086
  timeout 20 "$wrapper" $option "$paper" >/dev/full 2>"$tmp/err" || status=$?
  : >"$tmp/out"
  came "ladder $option > /dev/full" 1 /dev/null 'the output cannot be written: No space left on device'
done
fails 'a folder on standard input' 'cannot read standard input: Is a directory' "$wrapper" <"$here"
fails 'a folder' "cannot read '$here': Is a directory" "$wrapper" "$here"
fails 'no such file' "cannot read 'no/such file': No such file or directory" "$wrapper" 'no/such file'
fails 'standard input closed' 'standard input is closed' bash -c 'exec "$0" <&-' "$wrapper"
fails 'standard output closed' 'standard output is closed' bash -c 'exec "$0" "$1" >&-' "$wrapper" "$paper"
fails 'standard input only for writing' 'cannot read standard input: Bad file descriptor' bash -c 'exec "$0" 0>/dev/null' "$wrapper"
fails 'a small stack' 'its stack, limited to 1400 kB, is too small' bash -c 'ulimit -s 1400; exec "$0" "$1"' "$wrapper" "$paper"
fails 'no temporary folder' "no temporary folder can be made in '/no/such'" env TMPDIR=/no/such "$wrapper" "$paper"
fails 'a temporary file that cannot grow' "the output cannot be kept in '$TMPDIR/" bash -c 'ulimit -f 1; exec "$0" "$1"' "$wrapper" "$here/read_count_65536.run"
status=0
bash -c 'exec "$0" "$1" <&- 2>&-' "$wrapper" "$paper" >"$tmp/out" 2>"$tmp/err" || status=$?
came 'a file, standard input and error closed' 0 "$examples/paper.ladder" ''
printf 'read\t65536\t4\t64\t15\n' >"$tmp/large"
set +e
timeout 20 "$wrapper" "$tmp/large" 2>"$tmp/err" | head -c 1 >"$tmp/out"
status=${PIPESTATUS[0]}
set -e
printf 1 >"$tmp/want"
came 'a reader that closes early' 141 "$tmp/want" ''
# stands_in SCRIPT: replaces the program by a shell script.
stands_in() { printf '#!/bin/sh\n%s\n' "$1" >"$tree/libexec/ssp/ladder"; }
stands_in 'printf "1\t0"; kill -KILL $$'
fails 'a program that is killed' 'the program was stopped by signal 9' "$wrapper" "$paper"
stands_in 'kill -SEGV $$'
fails 'a segmentation fault with stack enough' 'the program was stopped by signal 11' bash -c 'ulimit -S -s 8192; exec "$0" "$1"' "$wrapper" "$paper"
stands_in 'printf "delivered\t0\t1\t0\t4\n"; exit 3'
fails 'a program that ends with 3' 'the program ended with status 3' "$wrapper" "$paper"
stands_in ':'
fails 'a program that prints nothing' 'did not print a whole line' "$wrapper" "$paper"
stands_in 'printf "1\t0\t4"'
fails 'a program that prints half a line' 'did not print a whole line' "$wrapper" "$paper"
# Rows that do not fit line one of the paper's example: a row missing, CDP forgotten, another offset, another frame number, a round left open, no
# verdict, another one, two, counts that are not the rows', words that are not the paper's.
while IFS= read -r edit; do
  sed -E "$edit" "$examples/paper.ladder" >"$tmp/rows"
  if cmp -s -- "$tmp/rows" "$examples/paper.ladder"; then fail "$edit changes nothing"; fi
  stands_in "cat '$tmp/rows'"
  fails "rows changed by $edit" 'it cannot be drawn: line one and the rows do not fit together' "$wrapper" --draw "$paper"
done <<'EDITS'
2d
4s/1\tok/0\tok/
5s/\t4\t4/\t8\t4/
6d
7d
7s/delivered\t0/failed\t29/
7s/\t1\t10/\t2\t10/
1s/lost/gone/
3s/discarded/<b>/
4s/\t0\t4\t1/\t4\t4\t1/
5s/^5/6/
7s/\t6\t1/\t5\t1/
7p
EDITS
rm -- "$tree/libexec/ssp/ladder"
fails 'no program' "no program at '$tree/libexec/ssp/ladder'" "$wrapper" "$paper"
cp -- "$prog" "$tree/libexec/ssp/ladder"

# ---- by symbolic links, from elsewhere ----

mkdir -p -- "$tmp/links/far"
ln -s -- "$wrapper" "$tmp/links/absolute"
ln -s -- '../a tree/bin/ladder' "$tmp/links/relative"
ln -s -- ../absolute "$tmp/links/far/ladder"
for link in absolute relative far/ladder; do
  status=0
  (cd -- "$tmp/links/far" && PATH=$tmp/links:$tmp/links/far:$PATH && exec timeout 20 "${link##*/}" "$paper") >"$tmp/out" 2>"$tmp/err" || status=$?
  came "the link $link" 0 "$examples/paper.ladder" ''
done

# ---- in the repository: built where the program is missing or older than a source ----

mkdir -p -- "$tmp/repository/crates/ladder/must-fail" "$tmp/rt"
cp -r -- "$root/ladder" "$root/share" "$tmp/repository/"
touch -- "$tmp/repository/crates.txt" "$tmp/repository/crates/ladder/source"
# Instead of rt: it leaves the time of an unchanged program, as rt does.
printf '#!/bin/sh\nprintf "%%s in %%s" "$*" "${PWD##*/}" >>"%s/calls"\n[ -e "%s/program" ] || { echo no proof; exit 1; }\nmkdir -p out && cp -p -- "%s/program" out/ladder\n' "$tmp" "$tmp" "$tmp" >"$tmp/rt/rt"
chmod 755 -- "$tmp/rt/rt"
# builds NAME CALLS: the wrapper prints the paper's example, and rt was called so.
builds() {
  : >"$tmp/calls"
  status=0
  PATH=$tmp/rt:$PATH timeout 20 "$tmp/repository/ladder" "$paper" >"$tmp/out" 2>"$tmp/err" || status=$?
  came "$1" 0 "$examples/paper.ladder" "${2:+proving and building}"
  if [[ $(cat -- "$tmp/calls") == "$2" ]]; then pass; else fail "$1: rt was called with '$(cat -- "$tmp/calls")'"; fi
}
fails 'a program that cannot be built' 'the program was not built' env PATH="$tmp/rt:$PATH" "$tmp/repository/ladder" "$paper"
if grep -q '^no proof$' "$tmp/err"; then pass; else fail 'the output of rt is not shown'; fi
cp -- "$prog" "$tmp/program"
touch -d '3 hours ago' -- "$tmp/program"
builds 'a missing program' 'run in ladder'
builds 'a program that is new' ''
touch -d '+1 hour' -- "$tmp/repository/crates/ladder/must-fail"/new
builds 'a new must-fail edit' ''
touch -d '+1 hour' -- "$tmp/repository/crates/ladder/out"/kept
builds 'new work of rt beside the program' ''
touch -d '2 hours ago' -- "$tmp/repository/crates/ladder/out/ladder"
builds 'a program older than a source' 'run in ladder'

find "$TMPDIR" -mindepth 1 >"$tmp/left"
if [[ ! -s $tmp/left ]]; then pass; else fail "left behind: $(head -n 1 -- "$tmp/left")"; fi

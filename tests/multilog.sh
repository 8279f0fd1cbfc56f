#!/usr/bin/env bash
# What no contract can say of multilog: that the system's own folders are what the program takes them for. Runs the
# program that the first word names over real folders, prints each check that fails, and at the end how many failed.
# The wanted values are those of the multilog page of daemontools and of docs/FORMATS.md.
# gate: 45 seconds, needs python3
calls=$(realpath "$(dirname "$0")/calls.c")
wrapper=$(realpath "$(dirname "$0")/../scripts/multilog")
. "$(dirname "$0")/checks.sh" "$1"
export DTOOLS=$program
mounted=
trap '[ -n "$mounted" ] && umount "$room/small" 2>/dev/null; rm -rf "$room"' EXIT

# ended NAME STATUS REPORTED WORDS..: multilog over the file `in`: its status, and what it says
ended() {
  local name=$1 status=$2 reported=$3
  shift 3
  timeout 120 "$program" multilog "$@" <in >out 2>reported
  is "$name: status" "$status" "$?"
  is "$name: reported" "$reported" "$(cat reported)"
  is "$name: printed" '' "$(cat out)"
}

# as COUNT: so many `a` and a newline
as() {
  head -c "$1" /dev/zero | tr '\0' a
  echo
}

size() {
  stat -c %s "$1"
}

olds() {
  find "$1" -name '@*' | wc -l
}

# Scripts that are refused: nothing is made.
: >in
for row in '100|word 1: SizeRange|s4095' '100|word 1: CountRange|n1' '100|word 2: StampNotFirst|e t' \
  '100|word 2: SameLogTwice|./no ./no' '100|word 1: BadNumber|s0x2000' '100|word 1: Processor|!cat' \
  '100|word 1: UnknownAction|tx' '100|word 1: Pattern|-a**b' '100|word 2: UnknownAction|./no ='; do
  IFS='|' read -r status reported words <<<"$row"
  # shellcheck disable=SC2086
  ended "refused: $words" "$status" "multilog: $reported" $words
done
for row in '|UnknownAction' '=|UnknownAction' 'ee|UnknownAction' 's|BadNumber' 's4096x|BadNumber' 's+5000|BadNumber' \
  's16777216|SizeRange' 's99999999999999999999|SizeRange' 'n4294967296|CountRange' '!x|Processor' '+a**|Pattern'; do
  ended "refused: '${row%|*}'" 100 "multilog: word 1: ${row#*|}" "${row%|*}" ./no
done
ended 'the first bad word' 100 'multilog: word 2: StampNotFirst' e t '!'
is 'refused: still none' no "$([ -e no ] && echo yes || echo no)"

# No words; empty input; modes.
printf 'x\ny' >in
ended 'no words' 0 ''
: >in
ended 'empty input' 0 '' t '-*' '+* fatal: *' ./empty
is 'empty input: current' 0 "$(size empty/current)"
is 'empty input: names' 'current lock' "$(ls empty | tr '\n' ' ' | sed 's/ $//')"
is 'mode of the folder' 700 "$(stat -c %a empty)"
is 'mode of current' 644 "$(stat -c %a empty/current)"
is 'mode of lock' 600 "$(stat -c %a empty/lock)"
(umask 0 && ended 'umask' 0 '' ./closed)
is 'umask: folder' 700 "$(stat -c %a closed)"
is 'umask: lock' 600 "$(stat -c %a closed/lock)"
(umask 077 && ended 'another umask' 0 '' ./closer)
is 'another umask: folder' 700 "$(stat -c %a closer)"
is 'another umask: current' 644 "$(stat -c %a closer/current)"
# A folder that is there keeps its mode; a lock that others can open is closed to them, and current is as if it were new.
mkdir -m 755 open
: >open/lock
: >open/current
chmod 666 open/lock open/current
ended 'an open folder' 0 '' ./open
is 'an open folder: modes' '755 600 644' "$(stat -c %a open open/lock open/current | xargs)"
# As nobody: it can't take the lock, and so can't keep the owner from it.
if [ "$(id -u)" = 0 ] && command -v setpriv flock >/dev/null; then
  chmod 711 .
  mkdir -m 755 public
  : >public/lock
  chmod 644 public/lock
  ended 'a public folder' 0 '' ./public
  setpriv --reuid=65534 --regid=65534 --clear-groups flock -n public/lock true 2>/dev/null
  is 'a public folder: its lock is not for others' no "$([ $? = 0 ] || echo no)"
fi

# A stamped line without its newline.
printf 'fatal: x' >in
ended 'stamped' 0 '' t '-*' '+* fatal: *' ./stamped
is 'stamped: length' 35 "$(size stamped/current)"
is 'stamped: text' ' fatal: x' "$(tail -c +26 stamped/current)"
is 'stamped: label' 1 "$(grep -c -E '^@[0-9a-f]{24} fatal: x$' stamped/current)"

# Patterns see the first 1000 bytes.
{ head -c 999 /dev/zero | tr '\0' a; echo b; head -c 1000 /dev/zero | tr '\0' a; echo b; } >in
ended 'first 1000 bytes' 0 '' '-*' '+*b' ./front
is 'first 1000 bytes' 1001 "$(size front/current)"

# A pattern, a line that it matches, and one that it doesn't.
for row in '||a' 'a*b|axxb|abb' 'a*b|ab|a' '*ab*|xab|aab' '* fatal: *|log fatal: full|my log fatal: full'; do
  IFS='|' read -r pattern matched other <<<"$row"
  printf '%s\n' "$other" "$matched" "$other" >in
  rm -rf chosen
  ended "pattern '$pattern'" 0 '' '-*' "+$pattern" ./chosen
  is "pattern '$pattern'" "$matched|" "$(tr '\n' '|' <chosen/current)"
done

# The same with so many patterns that the pairs of a line are noted, and with two of these in the same place of the table
# (`ad` and `qd`), a byte that is no letter, and a line too short for a pair.
mapfile -t many < <(printf -- '+%s\n' '*fatal:*' 'ad*' '* * lost *' 'é*' 'x' '*=*;*' '*]: full' '?' 'yz' 'zy')
printf '%s\n' 'log fatal: 1' 'log fata: l' 'ad' 'qd' 'a b lost c' 'a lost c' é x xx 'a=b;c' 'a=b' '[1]: full' \
  '[1]: fully' yz zy yzy >in
ended 'many patterns' 0 '' '-*' "${many[@]}" ./several
is 'many patterns' 'log fatal: 1|ad|a b lost c|é|x|a=b;c|[1]: full|yz|zy|' "$(tr '\n' '|' <several/current)"
ended 'many patterns, and the last one decides' 0 '' '-*' "${many[@]}" '-x*' '-a*' '+ad' ./decided
is 'many patterns, and the last one decides' 'log fatal: 1|ad|é|[1]: full|yz|zy|' "$(tr '\n' '|' <decided/current)"

# The last pattern before an action that matches decides.
printf 'yyy\nyxy\n' >in
ended 'choices' 0 yxy ./choice1 '-*' ./choice2 '+*x*' ./choice3 e =choice4
is 'choices: logs' 'yyy yxy||yxy' "$(xargs <choice1/current)|$(xargs <choice2/current)|$(xargs <choice3/current)"
is 'choices: status file' yxy "$(head -n 1 choice4)"

# Size and number of a log are those of the words before it: 99999 and 10 if there are none.
as 1103000 >in
ended 'sizes' 0 '' ./size1 s04096 n5 ./size2
is 'sizes: none' '9 99999 3012' "$(olds size1) $(stat -c %s size1/@* | sort -u) $(size size1/current)"
is 'sizes: a zero before' '4 4096 1177' "$(olds size2) $(stat -c %s size2/@* | sort -u) $(size size2/current)"

# A status file; alerts.
as 1000 >in
ended 'a status of 1000' 0 '' =st
is 'a status of 1000' "$(md5sum <in)" "$(md5sum <st)"
cp in wanted
as 1001 >in
ended 'a status of 1001' 0 '' =st
is 'a status of 1001' "$(md5sum <wanted)" "$(md5sum <st)"
is 'a status: mode' 600 "$(stat -c %a st)"
chmod 640 st
ended 'a status that is there' 0 '' =st
is 'a status that is there: its mode stays' 640 "$(stat -c %a st)"
: >elsewhere
ln -s elsewhere st.new
ended 'a link in place of the new status' 0 '' =st
is 'a link in place of the new status: is not followed' '0 regular file' "$(size elsewhere) $(stat -c %F st)"
is 'a status: no other file' no "$([ -e st.new ] && echo yes || echo no)"
printf 'short\n' >in
ended 'a short status' 0 '' =st
is 'a short status' '1001 996' "$(size st) $(tr -dc '\n' <st | wc -c)"
head -c 201 /dev/zero | tr '\0' x >in
ended 'an alert' 0 "$(head -c 200 /dev/zero | tr '\0' x)" e
ended 'a status that has no folder' 111 'multilog: Store: unable to write nosuch/st: No such file or directory' =nosuch/st

# When a file is full.
as 2094 >in
ended 'not full' 0 '' s4096 n2 ./edge
is 'not full' '2095 0' "$(size edge/current) $(olds edge)"
rm -r edge
as 2095 >in
ended 'full' 0 '' s4096 n2 ./edge
is 'full' '0 1' "$(size edge/current) $(olds edge)"
is 'full: old file' 2096 "$(stat -c %s edge/@*)"
is 'full: name' 1 "$(ls edge | grep -c -E '^@[0-9a-f]{24}\.s$')"
is 'full: mode' 744 "$(stat -c %a edge/@*)"
rm -r edge
as 5000 >in
ended 'cut' 0 '' s4096 n2 ./edge
is 'cut' '905 4096' "$(size edge/current) $(stat -c %s edge/@*)"

# A current file of 5000 bytes is finished by the next selected line alone.
mkdir found
head -c 5000 /dev/zero | tr '\0' f >found/current
: >in
ended 'found: no line' 0 '' s4096 ./found
is 'found: no line' '5000 0' "$(size found/current) $(olds found)"
echo y >in
ended 'found' 0 '' s4096 ./found
is 'found' '2 5000' "$(size found/current) $(stat -c %s found/@*)"

# A line of 1,000,000 bytes: nine old files stay.
as 1000000 >in
ended 'a long line' 0 '' s4096 ./long
is 'a long line' '577 9' "$(size long/current) $(olds long)"
is 'a long line: old files' 4096 "$(stat -c %s long/@* | sort -u)"

# Names that others wrote count, and the smallest goes first.
mkdir names
: >"names/@aaaaaaaaaaaaaaaaaaaaaaaa"
: >"names/@0000000000000000000000000"
: >names/@short
: >names/other
as 2095 >in
ended 'names' 0 '' s4096 n3 ./names
is 'names' no "$([ -e names/@0000000000000000000000000 ] && echo yes || echo no)"
is 'names: others stay' 'yes yes yes' "$(for f in @aaaaaaaaaaaaaaaaaaaaaaaa @short other; do [ -e names/$f ] && echo yes; done | tr '\n' ' ' | sed 's/ $//')"

# The greatest label of all is spent.
mkdir spent
: >spent/@7fffffffffffffff3b9ac9ff.s
ended 'labels spent' 111 'multilog: LabelsSpent' s4096 ./spent
is 'labels spent: appended' '2096 1' "$(size spent/current) $(olds spent)"

# Folders that can't be opened: the first is reported, and those before it are opened, no more.
: >file
echo x >in
ended 'a file for a folder' 111 'multilog: unable to open ./file: Not a directory' ./before ./file ./after
is 'before' 'current lock 0' "$(ls before | tr '\n' ' ')$(size before/current)"
is 'after' no "$([ -e after ] && echo yes || echo no)"
ended 'a folder without a parent' 111 'multilog: unable to open ./no/such: No such file or directory' ./no/such
mkdir notext
: >"notext/$(printf '\377')"
ended 'a name that is no text' 111 'multilog: unable to open ./notext: a name is no text' ./notext
ended 'one folder by two names' 111 'multilog: unable to open ./a/: locked by another process' ./a ./a/

# A second multilog is refused and harms nothing.
mkfifo pipe
exec 3<>pipe
timeout 120 "$program" multilog t ./shared <pipe 2>first 3>&- &
first=$!
echo one >&3
for _ in $(seq 400); do [ -s shared/current ] && break; sleep 0.05; done
is 'what was read is appended' 1 "$(wc -l <shared/current)"
before=$(md5sum <shared/current)
ended 'a second one' 111 'multilog: unable to open ./shared: locked by another process' t ./shared
is 'a second one: no harm' "$before" "$(md5sum <shared/current)"
echo two >&3
exec 3>&-
wait "$first"
is 'the first goes on' '0 2' "$? $(wc -l <shared/current)"

# Killed in mid-stream and started again, again and again: no line that was in current is lost, no old file changes.
mkdir -p killed
: >seen
lost=0
changed=0
for round in 1 2 3 4 5 6 7 8; do
  (i=0; while :; do i=$((i + 1)); echo "round $round line $i ...................................................."; done) 2>/dev/null |
    "$program" multilog s4096 n100000 ./killed 2>/dev/null &
  pid=$!
  sleep 0.1$round
  kill -KILL "$pid" 2>/dev/null
  wait "$pid" 2>/dev/null
  cat killed/@* killed/current 2>/dev/null >now
  head -c "$(size seen)" now | cmp -s - seen || lost=$((lost + 1))
  cp now seen
  if [ -e sums ]; then md5sum --quiet -c sums >/dev/null 2>&1 || changed=$((changed + 1)); fi
  ls killed/@* >/dev/null 2>&1 && md5sum killed/@* >sums
done
is 'killed: lines lost' 0 "$lost"
is 'killed: old files changed' 0 "$changed"
is 'killed: lines were written' true "$([ "$(size seen)" -gt 10000 ] && echo true)"
: >in
ended 'killed: started again' 0 '' s4096 n100000 ./killed

# A limit on the size of a file, and a full disk: what is there is a front of the input.
yes 'a line of text' | head -n 200000 >in
(
  trap '' XFSZ
  ulimit -f 40
  timeout 120 "$program" multilog s16777215 ./limited <in 2>reported
  is 'a limit' 111 "$?"
  is 'a limit: reported' 'multilog: Store: unable to write ./limited/current: File too large' "$(cat reported)"
  cmp -s <(head -c "$(size limited/current)" in) limited/current
  is 'a limit: a front' '0 true' "$? $([ "$(size limited/current)" -ge 40000 ] && echo true)"
  [ "$failed" = 0 ]
) || failed=$((failed + 1))
mkdir small
if mount -t tmpfs -o size=64k none small 2>/dev/null; then
  mounted=yes
  ended 'a full disk' 111 'multilog: Store: unable to write ./small/log/current: No space left on device' s16777215 ./small/log
  cmp -s <(head -c "$(size small/log/current)" in) small/log/current
  is 'a full disk: a front' 0 "$?"
fi

# The calls in their order, which a library between the program and the system notes (calls.c), if there is a compiler.
# A log that is finished is written, then safe on the disk, and only then has its new name; no file that is there is written
# over by that. A status file is made anew next to the old one, and takes its place whole.
if command -v cc >/dev/null && cc -shared -fPIC -o calls.so "$calls" -ldl 2>/dev/null; then
  for number in {1..400}; do echo "line $number of the log, which has some more words"; done >in
  CALLS=noted LD_PRELOAD=./calls.so timeout 120 "$program" multilog s4096 n2 ./noting '-*' '+*9 of*' =noted.status <in 2>reported
  is 'calls: status' 0 "$?"
  sed 's/@[0-9a-f]*\.s/@/' noted | grep -a noting/ >main
  finished=$(grep -c '^rename ' main)
  is 'calls: logs were finished' true "$([ "$finished" -ge 4 ] && echo true)"
  is 'calls: each is safe before it has its name' "$finished" "$(grep -v '^remove' main | paste -sd ' ' |
    grep -o 'write \./noting/current sync \./noting/current rename \./noting/current \./noting/@ open \./noting/current' | wc -l)"
  is 'calls: each opens the next' "$((finished + 1))" "$(grep -c '^open ./noting/current' main)"
  is 'calls: no log is written over' '' "$(grep -E '^(rename over|empty)' main)"
  grep -a status noted >statuses
  is 'calls: status files' 0 "$(paste -sd ' ' statuses | sed -E 's/open noted\.status\.new write noted\.status\.new( sync noted\.status\.new)? rename( over)? noted\.status\.new noted\.status ?//g' | wc -w)"
  is 'calls: there were status files' true "$([ "$(grep -c rename statuses)" -ge 10 ] && echo true)"
  # A file that another one made in the last moment has the name of the next old log.
  CALLS=again CALLS_MAKES=1 LD_PRELOAD=./calls.so timeout 120 "$program" multilog s4096 ./held <in 2>reported
  is 'calls: a name that is there' '111 multilog: Store: unable to finish ./held/current: File exists' "$? $(cat reported)"
  is 'calls: it is not written over' kept "$(cat ./held/@*.s)"
  is 'calls: no log is renamed' '' "$(grep '^rename' again)"
fi
# The installed multilog: at TERM the line in hand is read to its end and written, and what is after it stays in the pipe.
# started FOLDER PIPE: starts the wrapper, and waits until the logger has its lock; `shell` and `logger` are their numbers
started() {
  "$wrapper" n100000 "$1" <"$2" 6>&- 7>&- &
  shell=$!
  locked "$1"
  read -r logger _ <"/proc/$shell/task/$shell/children"
}
# locked FOLDER: waits until somebody has the lock of a log
locked() {
  local end=$((SECONDS + 60)) inode
  [ -e "$1/lock" ] || { mkdir -p "$1" && : >"$1/lock"; }
  inode=$(stat -c %i "$1/lock")
  until [[ $(</proc/locks) == *":$inode "* ]] || [ "$SECONDS" -gt "$end" ]; do :; done
}
# becomes WANTED COMMAND..: waits until a command prints this, for at most 20 s
becomes() {
  local wanted=$1 tries
  shift
  for tries in $(seq 400); do [ "$("$@" 2>/dev/null)" = "$wanted" ] && return; sleep 0.05; done
}
# left PIPE: what is in a pipe, in which a line is at least
left() { local line; { IFS= read -r -t 20 line; echo "$line"; timeout 0.3 cat; } <"$1"; }
# taken: how many bytes the logger has read; it has taken an ALRM once it has read one more
taken() { sed -n 's/^rchar: //p' "/proc/$logger/io"; }
# rotates: sends ALRM, and waits until the logger has taken it
rotates() {
  local before
  before=$(taken)
  kill -ALRM "$shell"
  becomes $((before + 1)) taken
}
# stops: sends TERM, and waits until the wrapper has closed the channel
channel() { [ -e "/proc/$shell/fd/4" ] && echo open || echo closed; }
stops() {
  kill -TERM "$shell"
  becomes closed channel
}

mkfifo half
exec 7<>half
started ./halves half
printf 'one\ntwo\nthr' >&7
becomes "$(printf 'one\ntwo')" head -n 2 halves/current
stops
sleep 0.2
is 'TERM in a line: the logger goes on' yes "$([ -d "/proc/$logger" ] && echo yes)"
printf 'ee\nfour\n' >&7
wait "$shell"
is 'TERM in a line: status' 0 "$?"
is 'TERM in a line: current' 'one two three' "$(xargs <halves/current)"
started ./halves half
becomes four tail -n 1 halves/current
# It is in a line once it has read these two bytes.
before=$(taken)
printf fi >&7
becomes $((before + 2)) taken
kill -KILL "$shell"
wait "$shell" 2>/dev/null
sleep 0.2
is 'the wrapper is killed in a line: the logger goes on' yes "$([ -d "/proc/$logger" ] && echo yes)"
printf 've\nsix\n' >&7
becomes no bash -c "[ -d /proc/$logger ] || echo no"
is 'the wrapper is killed in a line: current' 'one two three four five' "$(xargs <halves/current)"
started ./halves half
becomes six tail -n 1 halves/current
kill -KILL "$logger"
wait "$shell" 2>/dev/null
is 'the logger is killed: status of the wrapper' 137 "$?"
is 'the logger is killed: current' 'one two three four five six' "$(xargs <halves/current)"
exec 7>&-
"$wrapper" ./halves <in
is 'no TERM: status' 0 "$?"
"$wrapper" s1 <in 2>reported
is 'the status is that of the logger' '100 multilog: word 1: SizeRange' "$? $(cat reported)"
DTOOLS=$room/none "$wrapper" ./halves <in 2>reported
is 'no program: status' 111 "$?"

# ALRM: what is in current becomes an old file, at once if its last line is whole, or else after that line's
# newline.
# olds_hold FOLDER: the old files in the order of their names, as words
olds_hold() { cat "$1/"@* 2>/dev/null | xargs; }
mkfifo turn
exec 7<>turn
started ./turned turn
rotates
sleep 0.2
is 'ALRM, all is empty: no old file' '0 0' "$(olds turned) $(size turned/current)"
printf 'one\ntwo\n' >&7
becomes two tail -n 1 turned/current
kill -ALRM "$shell"
becomes 1 olds turned
is 'ALRM, idle: old file' 'one two' "$(olds_hold turned)"
becomes 0 size turned/current
is 'ALRM, idle: current' 0 "$(size turned/current)"
is 'ALRM, idle: name' 1 "$(ls turned | grep -c -E '^@[0-9a-f]{24}\.s$')"
rotates
sleep 0.2
is 'ALRM, current is empty: it is left alone' '1 0' "$(olds turned) $(size turned/current)"
printf 'three\nfo' >&7
becomes three head -n 1 turned/current
rotates
sleep 0.2
is 'ALRM in a line: it waits for the newline' 1 "$(olds turned)"
printf 'ur\nfive\n' >&7
becomes 2 olds turned
becomes five cat turned/current
is 'ALRM in a line: old files' 'one two three four' "$(olds_hold turned)"
is 'ALRM in a line: current' five "$(cat turned/current)"
printf 'six\nsev' >&7
becomes six grep -x six turned/current
rotates
stops
printf 'en\neight\n' >&7
wait "$shell"
is 'ALRM and TERM in a line: status' 0 "$?"
is 'ALRM and TERM in a line: old files' 'one two three four five six seven' "$(olds_hold turned)"
is 'ALRM and TERM in a line: current' 0 "$(size turned/current)"
is 'ALRM and TERM in a line: what is behind stays in the pipe' eight "$(left turn)"
exec 7>&-

# Three ALRMs in a flow of lines: each line is there once and in order, and each file ends with a line. Two ALRMs that come
# together are one, so the next one waits for what the one before it does. The flow goes on until they have all come.
mkfifo many
(
  number=0
  until [ "$number" -ge 1500 ] && [ -e enough ]; do echo $((number += 1)); sleep 0.001; done >many
  echo "$number" >lines
) &
flow=$!
started ./turns many
for turn in 1 2 3; do
  becomes true bash -c '[ -s turns/current ] && echo true'
  kill -ALRM "$shell"
  becomes "$turn" olds turns
done
: >enough
wait "$shell"
is 'three ALRMs in a flow: status' 0 "$?"
wait "$flow"
is 'three ALRMs in a flow: old files' 3 "$(olds turns)"
cat turns/@* turns/current | cmp -s - <(seq "$(cat lines)")
is 'three ALRMs in a flow: each line once, in order' 0 "$?"
is 'three ALRMs in a flow: files that end within a line' 0 \
  "$(for f in turns/@*; do tail -c 1 "$f" | tr -d '\n'; done | wc -c)"

# By the channel alone: a byte `a` is a rotation, the end is a stop. Each log by itself: an empty one is left alone, the
# number of old files is kept, and the label is past the greatest one, if there is one.
# heard WORDS SCRIPT..: multilog over no input and a channel in which these bytes are, and then its end
heard() {
  local words=$1
  shift
  exec 9< <(printf %s "$words")
  wait $!
  DTOOLS_STOP_FD=3 timeout 120 "$program" multilog "$@" 3<&9 9<&- </dev/null
}
mkdir -p by/one by/two by/three by/four
printf 'first\n' >by/one/current
printf 'half' >by/three/current
: >by/three/@400000000000000000000000.s
: >by/three/@7fffffffffffffff3b9ac9fe.s
heard a ./by/one ./by/two n2 ./by/three
is 'a rotation by the channel: status' 0 "$?"
is 'a rotation by the channel' '1 0' "$(olds by/one) $(size by/one/current)"
is 'a rotation by the channel: an empty log' '0 0' "$(olds by/two) $(size by/two/current)"
is 'a rotation by the channel: the label is past the greatest' half "$(cat by/three/@7fffffffffffffff3b9ac9ff.s)"
is 'a rotation by the channel: current' 0 "$(size by/three/current)"
is 'a rotation by the channel: the smallest goes' '@7fffffffffffffff3b9ac9fe.s @7fffffffffffffff3b9ac9ff.s current lock' \
  "$(ls by/three | xargs)"
printf 'last\n' >by/three/current
heard a ./by/three 2>reported
is 'a rotation with no label left' '111 multilog: LabelsSpent last' "$? $(cat reported) $(cat by/three/current)"
printf 'x\n' >by/four/current
heard aaa ./by/four
is 'three rotations, one line' '0 1' "$? $(olds by/four)"

# 40 TERMs in a flow of lines: each is in the log once, and in order, and each logger exits 0.
# asked_40_times NAME COUNT PAUSE: lines with numbers up to COUNT, or more until all TERMs were sent, each after a pause of so many
# seconds
asked_40_times() {
  local turn ends=0 logged
  mkfifo "flow$1"
  python3 -c '
import os, sys, time
count, pause, number = int(sys.argv[1]), float(sys.argv[2]), 0
out = open(sys.argv[3], "w", 1 << 16 if pause == 0 else 1)
while number < count or number % 10 or not os.path.exists(sys.argv[3] + ".enough"):
    number += 1
    print(number, file=out)
    if pause: time.sleep(pause)
open(sys.argv[3] + ".count", "w").write(str(number))
' "$2" "$3" "flow$1" &
  flow=$!
  exec 6<"flow$1"
  for turn in $(seq 40); do
    started "./flow$1.log" /dev/fd/6
    sleep "0.00$((turn % 10))"
    kill -TERM "$shell"
    wait "$shell" || ends=$((ends + 1))
  done
  is "40 TERMs, $1: loggers that failed" 0 "$ends"
  logged=$(cat "flow$1.log/"@* "flow$1.log/current" 2>/dev/null | wc -l)
  : >"flow$1.enough"
  "$wrapper" n100000 "./flow$1.log" <&6
  wait "$flow"
  is "40 TERMs, $1: lines are left" true "$([ "$logged" -lt "$(cat "flow$1.count")" ] && echo true)"
  cat "flow$1.log/"@* "flow$1.log/current" 2>/dev/null | cmp -s - <(seq "$(cat "flow$1.count")")
  is "40 TERMs, $1: each line once, in order" 0 "$?"
  exec 6<&-
}
asked_40_times 1 6000000 0
asked_40_times 2 2500 0.001
asked_40_times 3 150 0.02

# The channel is the pipe that the environment names; if it names none there is none, and TERM ends the program.
echo x >in
for channel in x '' 0 2 9 -1 4294967299; do
  DTOOLS_STOP_FD=$channel timeout 120 "$program" multilog ./named <in 3>&- 9>&-
  is "a channel of number '$channel'" 0 "$?"
done
DTOOLS_STOP_FD=3 timeout 120 "$program" multilog ./named <in 3>&-
is 'a channel that is not open' 0 "$?"
DTOOLS_STOP_FD=3 timeout 120 "$program" multilog ./named <in 3</dev/null
is 'a channel that is no pipe' 0 "$?"
is 'no channel: all is read' 9 "$(wc -l <named/current)"
# The word is in the channel before the program begins, which looks at it first.
printf x >word
: >end
for word in word end; do
  exec 9< <(cat "$word")
  wait $!
  DTOOLS_STOP_FD=3 timeout 120 "$program" multilog ./named <in 3<&9 9<&-
  is "a stop by a byte or the end: $word" '0 9' "$? $(wc -l <named/current)"
  exec 9<&-
done
is 'another command has no channel' 1 "$(DTOOLS_STOP_FD=3 timeout 120 "$program" tai64n <in 3< <(:) | wc -l)"

# Stamps: the clock is read once a read, and lines that were read together differ by a nanosecond each; so they rise, also
# if the clock goes back.
# nanos LINE: the time of a stamp in nanoseconds of Unix time, and ten seconds
nanos() {
  local label=${1:1:24}
  echo $((16#${label:8:8} * 1000000000 + 16#${label:16:8}))
}
# apart FILE FIRST SECOND: how many nanoseconds lie between the stamps of two lines
apart() {
  echo $(($(nanos "$(sed -n "$3p" "$1")") - $(nanos "$(sed -n "$2p" "$1")")))
}
seq 100000 >in
ended 'stamps' 0 '' t s16777215 ./times
is 'stamps: each line has one' 100000 "$(grep -c -E '^@[0-9a-f]{24} [0-9]+$' times/current)"
is 'stamps: they rise' yes "$(cut -c 1-25 times/current | LC_ALL=C sort -cu 2>/dev/null && echo yes)"
is 'stamps: lines of one read' 99 "$(apart times/current 1 100)"
is 'stamps: they are of now' true "$([ $(($(date +%s) + 10 - $(nanos "$(tail -n 1 times/current)") / 1000000000)) -lt 60 ] && echo true)"
# until_some FILES..: waits until one of these files has something in it
until_some() { for _ in $(seq 400); do cat "$@" 2>/dev/null | grep -q . && return; sleep 0.05; done; }
(echo one; until_some waited/current; sleep 0.3; echo two) | "$program" multilog t ./waited
is 'stamps: the clock is read anew after a wait' true "$([ "$(apart waited/current 1 2)" -ge 250000000 ] && echo true)"
exec 9< <(until_some idled/current; sleep 0.5; printf a; until_some idled/@*)
DTOOLS_STOP_FD=3 timeout 120 "$program" multilog t ./idled 3<&9 9<&- < <(echo line; until_some idled/@*; sleep 2)
exec 9<&-
is 'stamps: a rotation has its own time' true \
  "$([ $(($(nanos "$(basename idled/@*)") - $(nanos "$(cat idled/@*)"))) -ge 250000000 ] && echo true)"
cat >back.c <<'END'
#include <time.h>
static long gone;
int clock_gettime(clockid_t which, struct timespec *at) {
  at->tv_sec = 1000000000 - (which == CLOCK_REALTIME ? ++gone : 0);
  at->tv_nsec = 5;
  return 0;
}
END
if command -v cc >/dev/null && cc -shared -fPIC -o back.so back.c 2>/dev/null; then
  (for line in one two three; do echo $line; sleep 0.1; done) | LD_PRELOAD=./back.so "$program" multilog t ./back
  is 'a clock that goes back: stamps rise' '1 1' "$(apart back/current 1 2) $(apart back/current 2 3)"
fi

counts multilog

#!/usr/bin/env bash
# A regression suite after the manual pages of daemontools 0.76 (cr.yp.to/daemontools.html): for each command its statuses, its
# faults and what it does. Each line runs on the program that the first word names, by the installed names, and if Debian's
# daemontools is installed on that too. If the two differ on purpose, a row of docs/COMING-FROM-DAEMONTOOLS.md says so, and
# this script looks for that row.
# gate: 40 seconds
top=$(realpath "$(dirname "$0")/..")
. "$top/tests/checks.sh" "$1"
leave() {
  for suite in ours theirs; do [ -e "$suite.svscan" ] && kill_group "$(cat $suite.svscan)"; done
  [ -e numbers ] && own $(<numbers) | xargs -r kill -KILL 2>/dev/null
  rm -rf "$room"
}
trap leave EXIT
make -s -C "$top" PROGRAM="$program" PREFIX="$room/at" SERVICES="$room/services" UNITS="$room/units" install >/dev/null 2>&1
ours=$room/at/lib/dtools/bin
theirs=
if [ "$(dpkg-query -W -f '${Version}' daemontools 2>/dev/null | grep -o '0\.76')" ] && [ -x /usr/bin/svscan ]; then theirs=/usr/bin; fi

# run BIN COMMAND WORDS..: leaves its status and what it prints
run() {
  timeout 60 "$1/$2" "${@:3}" >printed 2>/dev/null <"${input:-/dev/null}"
  status=$?
}

# same NAME STATUS PRINTED COMMAND WORDS..: it ends so and prints that, in both suites
same() {
  local name=$1 wanted=$2 text=$3
  shift 3
  run "$ours" "$@"
  is "$1, $name" "$wanted $text" "$status $(cat printed)"
  [ "$theirs" ] || return
  run "$theirs" "$@"
  is "$1 of daemontools, $name" "$wanted $text" "$status $(cat printed)"
}

# differs ROW NAME STATUS PRINTED THERE THERE_PRINTED COMMAND WORDS..: it ends so here, and so there; the table has that row
differs() {
  local row=$1 name=$2 wanted=$3 text=$4 there=$5 there_text=$6
  shift 6
  run "$ours" "$@"
  is "$1, $name" "$wanted $text" "$status $(cat printed)"
  is "a row of COMING-FROM: $row" 1 "$(grep -cF "| $row |" "$top/docs/COMING-FROM-DAEMONTOOLS.md")"
  [ "$theirs" ] || return
  run "$theirs" "$@"
  is "$1 of daemontools, $name" "$there $there_text" "$status $(cat printed)"
}

# The statuses of wrong words, and of what is not there.
for command in setuidgid envuidgid softlimit setlock pgrphack fghack svok readproctitle; do same 'no words' 100 '' "$command"; done
for command in svc svstat; do same 'no words' 0 '' "$command"; done
differs 'wrong words of a command' 'no words' 100 '' 111 '' envdir
differs 'wrong words of a command' 'one word' 100 '' 111 '' envdir d
differs 'wrong words of a command' 'a word' 100 '' 0 '' tai64n x
differs 'wrong words of a command' 'a word' 100 '' 0 '' tai64nlocal x
same 'an unknown letter' 100 '' svc -z nosuch
# (Debian 13 has added these to its own)
letters=100
[ -z "$theirs" ] || ! /usr/bin/svc -z 2>&1 | grep -q 'q quit' || letters=0
differs '`svc`: `1`, `2`, `q`' 'the letter q' 0 '' "$letters" '' svc -q nosuch
differs '`svc`: `1`, `2`, `q`' 'the letter 1' 0 '' "$letters" '' svc -1 nosuch
same 'no such service' 0 '' svc -u nosuch
mkdir empty
same 'a folder that nobody supervises' 0 '' svc -u empty
same 'a folder that nobody supervises' 100 '' svok empty
differs '`svstat`: a folder without `supervise`' 'a folder without supervise' 0 'empty: supervise not running' \
  0 'empty: unable to open supervise/ok: file does not exist' svstat empty
differs '`svok`: a folder that is not there' 'no such folder' 100 '' 111 '' svok nosuch
same 'no such folder' 111 '' svscan nosuch
same 'no such program' 111 '' setuidgid nobody ./nosuch
for command in 'envuidgid nobody' softlimit 'setlock lock' pgrphack fghack 'envdir empty'; do
  # shellcheck disable=SC2086
  same 'no such program' 111 '' $command ./nosuch
done
same 'no such account' 111 '' setuidgid nosuchaccount true
same 'no such account' 111 '' envuidgid nosuchaccount true
same 'no such folder' 111 '' envdir nosuch true
same 'no such folder for its lock' 111 '' setlock nosuch/lock true
same 'no such folder for its lock, -x' 0 '' setlock -x nosuch/lock true
for command in 'setuidgid nobody' 'envuidgid nobody' 'softlimit -o 50' 'setlock lock' pgrphack fghack 'envdir empty'; do
  # shellcheck disable=SC2086
  [ "$command" = 'setuidgid nobody' ] && [ "$(id -u)" != 0 ] || same 'the status of the program' 7 'a b' $command sh -c 'echo "a b"; exit 7'
done
same 'a program that a signal ended' 111 '' fghack sh -c 'kill -KILL $$'

# envdir: first lines, without blanks at their end, NUL as newline; no bytes take a variable away; a name with a dot is none.
mkdir env
printf 'x y \t\nmore' >env/A
printf 'p\0q' >env/B
: >env/GONE
printf '\n' >env/EMPTY
printf 'hidden' >env/.H
[ "$theirs" ] && is 'envdir of daemontools, the variables' 'x y|p
q|none||none' "$(GONE=1 /usr/bin/envdir env sh -c 'echo "$A|$B|${GONE-none}|$EMPTY|${H-none}"')"
is 'envdir, the variables' 'x y|p
q|none||none' "$(GONE=1 "$ours/envdir" env sh -c 'echo "$A|$B|${GONE-none}|$EMPTY|${H-none}"')"
mkdir path
printf '/nosuch' >path/PATH
same 'the program is sought in its own PATH' 0 ran envdir path echo ran
same 'the program has the changed PATH' 0 /nosuch envdir path printenv PATH

# tai64n and tai64nlocal: a label before each line; labels as local times.
printf 'one\n\nthree' >lines
for bin in $ours $theirs; do
  is "tai64n by $bin" '@N one
@N 
@N three' "$("$bin/tai64n" <lines | sed -E 's/^@[0-9a-f]{24} /@N /')"
done
# 2^62 + 10 + 1000000000 is 2001-09-09 01:46:40 of UTC; leap seconds are those of libtai's table, which is that of 1999 there.
printf '@400000003b9aca0a075bcd15 then\n@400000003b9aca0a075bcd1 short\nno label\n' >labels
export TZ=UTC
input=labels
run "$ours" tai64nlocal
is 'tai64nlocal' '2001-09-09 01:46:40.123456789 then' "$(head -n 1 printed)"
is 'tai64nlocal, the rest' '@400000003b9aca0a075bcd1 short
no label' "$(tail -n 2 printed)"
[ "$theirs" ] && is 'tai64nlocal of daemontools' '2001-09-09 01:46:40.123456789 then' "$(head -n 1 labels | /usr/bin/tai64nlocal)"
unset input TZ

# multilog: what is selected, in which log; a size; the alert; the status file.
printf 'abc\nabd\nxyz\n\nlast' >lines
# logged BIN SCRIPT..: the lines of ./log/current, and its status
logged() {
  rm -rf log
  "$@" <lines >out 2>err
  status=$?
  echo "$status $(cat log/current 2>/dev/null | xargs -d '\n')"
}
for bin in $ours $theirs; do
  is "multilog by $bin: all" '0 abc abd xyz  last' "$(logged "$bin/multilog" ./log)"
  is "multilog by $bin: deselected" '0 xyz  last' "$(logged "$bin/multilog" '-ab*' ./log)"
  is "multilog by $bin: selected again" '0 abd' "$(logged "$bin/multilog" '-*' '+*d' ./log)"
  is "multilog by $bin: a log of its own" '0 xyz' "$(logged "$bin/multilog" '-*' '+x*' ./log '-*')"
  is "multilog by $bin: a star stands for what has not its next byte" '0 abc abd' "$(logged "$bin/multilog" '-*' '+a*b*' ./log)"
  is "multilog by $bin: stamps" '0 @N abc @N abd @N xyz @N  @N last' \
    "$(logged "$bin/multilog" t ./log | sed -E 's/@[0-9a-f]{24}/@N/g')"
  is "multilog by $bin: an alert" '0 xyz' "$(logged "$bin/multilog" '-*' '+x*' e >/dev/null; echo "$status $(cat err)")"
  is "multilog by $bin: a status file" xyz "$(logged "$bin/multilog" '-*' '+x*' =./state >/dev/null; head -n 1 state)"
  rm -f state
  is "multilog by $bin: an empty line has a log too" '0 ' "$(logged "$bin/multilog" '-?*' '-*a*' '-*' '+' ./log)"
done
# Old files: at most n with current, each at most of the size.
for bin in $ours $theirs; do
  rm -rf log
  seq 3000 | "$bin/multilog" s4096 n3 ./log
  is "multilog by $bin: old files" 2 "$(ls log | grep -c '^@.*\.s$')"
  is "multilog by $bin: no file is too large" '' "$(find log -size +4096c)"
  is "multilog by $bin: the last line is there" 3000 "$(tail -n 1 log/current)"
done
differs '`multilog`: an unknown word, a `t` that is not first' 'an unknown word' 100 '' 0 '' multilog x

# Services. play BIN FOLDER: what is told of one through its life
# (svstat of dtools has a note in the first second of a process, which a row of the table says)
numbers() { sed -E 's/pid [0-9]+/pid N/; s/[0-9]+ seconds/N seconds/; s/, settling//'; }
is 'a row of COMING-FROM: notes' 1 "$(grep -cF '| `svstat`: what supervise waits for |' "$top/docs/COMING-FROM-DAEMONTOOLS.md")"
play() {
  local bin=$1 folder=$2 number
  mkdir -p "$folder/up" "$folder/kept" "$folder/pair/log"
  cat >"$folder/up/run" <<END
#!/bin/bash
echo \$\$ >>$room/numbers
for signal in TERM CONT HUP ALRM INT; do trap "echo \$signal >>told" \$signal; done
trap 'echo TERM >>told; exit' TERM
echo start >>told
while :; do sleep 0.1; done
END
  printf '#!/bin/sh\necho $$ >>%s/numbers\nexec sleep 1000\n' "$room" >"$folder/kept/run"
  : >"$folder/kept/down"
  printf '#!/bin/sh\necho $$ >>%s/numbers\necho hello\nexec sleep 1000\n' "$room" >"$folder/pair/run"
  printf '#!/bin/sh\nexec %s/multilog ./main\n' "$bin" >"$folder/pair/log/run"
  chmod 755 "$folder"/*/run "$folder/pair/log/run"
  (cd "$folder" && PATH=$bin:$PATH exec setsid "$bin/svscan" .) </dev/null >/dev/null 2>&1 &
  echo $! >"$folder.svscan"
  disown
  cd "$folder" || exit 1
  # told COUNT: waits until the service has told so much
  told() { for _ in $(seq 600); do [ "$(wc -l 2>/dev/null <up/told)" -ge "$1" ] && return; sleep 0.1; done; }
  # shows SERVICE PATTERN: waits until svstat shows that at the end of its line
  shows() { for _ in $(seq 600); do "$bin/svstat" "$1" | grep -q -e "$2\$" && break; sleep 0.1; done; sleep 0.2; "$bin/svstat" "$1" | numbers; }
  for _ in $(seq 600); do "$bin/svok" up && "$bin/svok" pair/log && break; sleep 0.1; done
  told 1
  sleep 1.2
  echo "svok $("$bin/svok" up; echo $?)"
  shows up ': up .* seconds'
  shows kept ': down .* seconds'
  "$bin/svc" -h up; told 2
  "$bin/svc" -a up; told 3
  "$bin/svc" -i up; told 4
  "$bin/svc" -p up; shows up 'paused'
  "$bin/svc" -c up; told 5
  echo "told $(xargs <up/told)"
  "$bin/svc" -t up; told 7
  sleep 1.2
  echo "after -t $(xargs <up/told)"
  shows up ': up .* seconds'
  "$bin/svc" -d up
  shows up ': down .* seconds, normally up'
  "$bin/svc" -o up; told 9
  sleep 1.2
  "$bin/svc" -t up
  shows up ': down .* seconds, normally up'
  "$bin/svc" -u up kept
  shows kept ': up .* seconds, normally down'
  sleep 1.2
  "$bin/svc" -k kept
  sleep 1.5
  shows kept ': up .* seconds, normally down'
  echo "pair $(head -n 1 pair/log/main/current)"
  # The names go first, or they would be started again.
  for service in up kept pair; do mv "$service" ".$service"; done
  "$bin/svc" -dx .up .kept .pair .pair/log
  for _ in $(seq 600); do "$bin/svok" .up || "$bin/svok" .kept || "$bin/svok" .pair || break; sleep 0.1; done
  echo "svok $("$bin/svok" .up; echo $?)"
  "$bin/svstat" .up
  kill_group "$(cat "../$(basename "$folder").svscan")"
}
cat >life <<'END'
svok 0
up: up (pid N) N seconds
kept: down N seconds
up: up (pid N) N seconds, paused
told start HUP ALRM INT CONT
after -t start HUP ALRM INT CONT TERM start
up: up (pid N) N seconds
up: down N seconds, normally up
up: down N seconds, normally up
kept: up (pid N) N seconds, normally down
kept: up (pid N) N seconds, normally down
pair hello
svok 100
.up: supervise not running
END
is 'the life of a service' "$(cat life)" "$(play "$ours" ours)"
[ "$theirs" ] && is 'the life of a service under daemontools' "$(cat life)" "$(play /usr/bin theirs)"
[ "$theirs" ] || echo 'rts, next to daemontools: skipped, daemontools 0.76 is not installed'
counts rts

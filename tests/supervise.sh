#!/usr/bin/env bash
# What no contract can say of supervise: that a real service in a real folder is started, kept and ended by it alone. Runs
# the program that the first word names over folders of its own, a scenario for each matter and all side by side, prints each
# check that fails, and at the end how many failed. Further words are the scenarios that are wanted, if not all are. The wanted
# values are those of the daemontools pages and of docs/FORMATS.md.
# gate: 30 seconds
. "$(dirname "$0")/checks.sh" "$1"
export LC_ALL=C

# Each supervise of a scenario is with its service a process group, and so is a scenario. A file has the groups' numbers.
kill_groups() {
  local group
  while read -r group; do kill_group "$group"; done <"$1"
}

leave() {
  local list
  for list in "$room"/*.groups; do [ -e "$list" ] && kill_groups "$list"; done
  for _ in 1 2 3 4 5; do rm -rf "$room" 2>/dev/null && break; sleep 0.2; done
}
trap leave EXIT
trap 'exit 1' INT TERM HUP

# until_true SECONDS COMMAND..: tries the command each 50 ms, until it succeeds. The seconds are those of an idle machine: a
# busy one has six times as many, and at least as many tries.
until_true() {
  local end=$((${EPOCHREALTIME/[.,]/} + $1 * 6000000)) looks=$(($1 * 20))
  shift
  until "$@"; do
    ((looks -= 1)) || true
    [ "$looks" -gt 0 ] || [ "${EPOCHREALTIME/[.,]/}" -lt "$end" ] || return 1
    sleep 0.05
  done
}

# so NAME COMMAND..: the command succeeds
so() {
  local name=$1
  shift
  is "$name ($*)" yes "$("$@" >/dev/null 2>&1 && echo yes)"
}

# soon NAME SECONDS COMMAND..: the command succeeds within that time
soon() {
  local name=$1 seconds=$2
  shift 2
  is "$name (within $seconds s: $*)" yes "$(until_true "$seconds" "$@" >/dev/null 2>&1 && echo yes)"
}

not() {
  ! "$@"
}

# ended NAME STATUS REPORTED WORDS..: supervise with these words ends by itself, with this status, and reports this
ended() {
  local name=$1 status=$2 reported=$3
  shift 3
  timeout -k 1 30 "$program" supervise "$@" >ended.out 2>ended.reported </dev/null
  is "$name: status" "$status" "$?"
  is "$name: reported" "$reported" "$(cat ended.reported)"
  is "$name: printed" '' "$(cat ended.out)"
}

# start COMMAND REPORTED WORDS..: starts `supervise` or `svscan` with these words. What it says is added to the file REPORTED,
# and its number is left in started. By job control it gets a process group of its own. A job of this shell can be waited for.
start() {
  local command=$1 reported=$2
  shift 2
  set -m
  "$program" "$command" "$@" </dev/null >>"$reported.out" 2>>"$reported" &
  started=$!
  set +m
  echo "$started" >>"$room/$scenario.groups"
}

# service FOLDER: makes a service, whose run is a script of sh from standard input
service() {
  mkdir -p "$1"
  { echo '#!/bin/sh'; cat; } >"$1/run"
  chmod 755 "$1/run"
}

# sleeper FOLDER: a service that notes each start with its number, and sleeps
sleeper() {
  service "$1" <<'END'
echo $$ >>starts
exec sleep 1000
END
}

svc() { timeout 10 "$program" svc "$@"; }
is_served() { timeout 10 "$program" svok "$1"; }
stat_line() { timeout 10 "$program" svstat "$1" | sed -E 's/ [0-9]+ seconds/ N seconds/'; }
process() { od -An -tu4 -j12 -N4 --endian=little "$1/supervise/status" 2>/dev/null | tr -d ' '; }
is_up() { [ "0$(process "$1")" -gt 0 ]; }
is_put_down() { [[ $(timeout 10 "$program" svstat "$1") == *': down '*' seconds, normally up' ]]; }
is_settled() {
  local line
  line=$(timeout 10 "$program" svstat "$1")
  [[ $line == *': up (pid '* && $line != *', settling'* ]]
}
is_exiting() { [[ $(timeout 10 "$program" svstat "$1") == *': up '*exiting ]]; }
is_another() { is_up "$1" && [ "$(process "$1")" != "$2" ]; }
has_lines() { [ -e "$2" ] && [ "$(wc -l <"$2")" -ge "$1" ]; }
state() { sed 's/.*) //; s/ .*//' "/proc/$1/stat" 2>/dev/null; }
lives() { [[ $(state "$1") =~ [RSDTt] ]]; }
holds() { grep -q -e "$1" "$2"; }
sockets() { find -L "$@" -type s 2>/dev/null | wc -l; }
millis() { echo $((${EPOCHREALTIME/[.,]/} / 1000)); }
# the processor time that a process has used, in hundredths of a second
used() { awk '{ sub(/.*\) /, ""); print $12 + $13 }' "/proc/$1/stat"; }

# ends_by NAME LETTERS FOLDER [SECONDS]: after these letters the supervise that was started last ends with 0, in less than a second or
# than so many. The time for which the machine stood still meanwhile does not count.
ends_by() {
  local begun status took still seconds=${4:-1}
  stood_still stood &
  still=$!
  begun=$(millis)
  svc "$2" "$3"
  wait "$started"
  status=$?
  took=$(($(millis) - begun))
  kill -TERM "$still"
  wait "$still"
  is "$1: status" 0 "$status"
  is "$1: in less than $seconds s, $took ms" yes "$([ $((took - $(tail -n 1 stood 2>/dev/null || echo 0))) -lt $((seconds * 1000)) ] && echo yes)"
}

# One service through its life.
life() {
  service d/web <<'END'
echo out
echo err >&2
trap 'echo TERM >>signals; exit 0' TERM
trap 'echo HUP >>signals' HUP
echo $$ >pid
while :; do sleep 0.1; done
END
  service d/web/log <<'END'
exec cat
END
  start supervise reported d/web
  soon 'up' 5 is_settled d/web
  local first
  first=$(cat d/web/pid)
  is 'up' "d/web: up (pid $first) N seconds" "$(stat_line d/web)"
  is 'svok' 0 "$(is_served d/web; echo $?)"
  is 'its standard output is that of supervise' out "$(cat reported.out)"
  is 'its standard error too' err "$(cat reported)"
  soon 'a trace is kept' 8 test -s d/web/supervise/trace
  svc -h d/web
  soon 'h' 3 holds HUP d/web/signals
  svc -t d/web
  soon 't: TERM' 3 holds TERM d/web/signals
  soon 't: it starts again' 4 is_another d/web "$first"
  soon 't: up' 4 is_settled d/web
  first=$(process d/web)
  svc -d d/web
  soon 'd' 3 is_put_down d/web
  so 'd: the process is gone' not lives "$first"
  svc -u d/web
  soon 'u' 4 is_settled d/web
  first=$(process d/web)
  kill -KILL "$first"
  soon 'after a death it starts again' 4 is_another d/web "$first"
  soon 'after a death: up' 4 is_settled d/web
  is 'svwait' 0 "$(timeout 10 "$program" wait -u d/web >/dev/null 2>&1; echo $?)"
  first=$(process d/web)
  is 'svrestart' 0 "$(timeout 10 "$program" restart d/web >/dev/null 2>&1; echo $?)"
  so 'svrestart: another process' is_another d/web "$first"
  is 'why' 0 "$(timeout 10 "$program" why d/web >why.out 2>&1; echo $?)"
  so 'why: it is up' holds '^d/web is up' why.out
  is 'only one look at the folder' "$(printf '%s\n' d d/web d/web/log d/web/supervise)" "$(find d -type d | sort)"
  first=$(process d/web)
  ends_by 'dx' -dx d/web
  so 'dx: the process is gone' not lives "$first"
  is 'dx: no socket is left' 0 "$(sockets d)"
  is 'dx: svok' 100 "$(is_served d/web; echo $?)"
  is 'dx: the last trace' 'state gone' "$(timeout 10 "$program" trace d/web/supervise/trace | tail -n 1 | cut -c 1-10)"
  is 'nothing else is said' '' "$(grep -v '^err$' reported)"
}

# A service that exits by x alone, once its process ends.
exits() {
  sleeper d/web
  start supervise reported d/web
  soon 'up' 5 is_settled d/web
  svc -x d/web
  soon 'x: the process goes on' 3 is_exiting d/web
  so 'x: supervise waits' lives "$started"
  kill -TERM "$(process d/web)"
  wait "$started"
  is 'x: status' 0 "$?"
  is 'x: it started once' 1 "$(wc -l <d/web/starts)"
}

# A service with a file down.
down() {
  sleeper d/web
  touch d/web/down
  start supervise reported d/web
  soon 'served' 5 is_served d/web
  sleep 1.2
  is 'down' 'd/web: down N seconds' "$(stat_line d/web)"
  so 'it was not started' not test -e d/web/starts
  svc -u d/web
  soon 'u' 4 is_settled d/web
  ends_by 'dx' -dx d/web
  start supervise reported d/web
  soon 'again: served' 5 is_served d/web
  sleep 1.2
  ends_by 'x of one that is down' -x d/web
  is 'nothing is said' '' "$(cat reported)"
}

# A service has one supervisor.
locked() {
  sleeper d/web
  start supervise reported d/web
  soon 'up' 5 is_settled d/web
  local first=$(process d/web) own=$started
  ended 'a second supervise' 111 'supervise: unable to lock d/web' d/web
  timeout 30 "$program" svscan d 1 >svscan.out 2>svscan.reported </dev/null
  is 'a svscan over it' 'svscan: web: unable to lock' "$(cat svscan.reported)"
  is 'it runs on' "$first" "$(process d/web)"
  so 'so does supervise' lives "$own"
  is 'it started once' 1 "$(wc -l <d/web/starts)"
  ends_by 'dx' -dx d/web
  start svscan reported2 d
  soon 'under svscan: up' 5 is_settled d/web
  ended 'a service of svscan' 111 'supervise: unable to lock d/web' d/web
  first=$(process d/web)
  svc -x d/.svscan
  wait "$started"
  is 'svscan ends' 0 "$?"
  so 'and with it the service' not lives "$first"
}

# A killed supervise leaves its service, and the next one, or a svscan, takes it up.
killed() {
  sleeper d/web
  start supervise reported d/web
  soon 'up' 5 is_settled d/web
  local first
  first=$(process d/web)
  kill -KILL "$started"
  wait "$started" 2>/dev/null
  so 'the service runs on' lives "$first"
  is 'nobody serves it' 100 "$(is_served d/web; echo $?)"
  start supervise reported d/web
  soon 'the next one serves it' 5 is_served d/web
  is 'the same process' "$first" "$(process d/web)"
  is 'up' "d/web: up (pid $first) N seconds" "$(stat_line d/web)"
  kill -KILL "$started"
  wait "$started" 2>/dev/null
  start svscan reported2 d
  soon 'a svscan serves it' 5 is_served d/web
  is 'svscan: the same process' "$first" "$(process d/web)"
  svc -q d/.svscan
  wait "$started"
  is 'svscan leaves it' 0 "$?"
  start supervise reported d/web
  soon 'supervise takes it from svscan' 5 is_served d/web
  is 'from svscan: the same process' "$first" "$(process d/web)"
  is 'it started once' 1 "$(wc -l <d/web/starts)"
  # The process is no child of it: that is looked at once a second, and every two seconds if nobody waits for a dead one.
  ends_by 'dx' -dx d/web 3
  soon 'dx: the process is gone' 2 not lives "$first"
  is 'nothing is said' '' "$(cat reported reported2)"
}

# While nothing happens, supervise uses no time of a processor.
idle() {
  sleeper d/web
  start supervise reported d/web
  soon 'up' 5 is_settled d/web
  soon 'its trace is kept' 8 test -s d/web/supervise/trace
  sleep 6
  local before now
  before=$(used "$started")
  sleep 11
  now=$(used "$started")
  is "hundredths of a second in 11 seconds: $((now - before))" yes "$([ $((now - before)) -le 1 ] && echo yes)"
  ends_by 'dx' -dx d/web
}

# What can't be supervised.
refused() {
  ended 'no word' 100 "$(printf '%s\n' 'dtools: usage' 'dtools supervise DIR')"
  ended 'two words' 100 "$(printf '%s\n' 'dtools: usage' 'dtools supervise DIR')" one two
  ended 'no such folder' 111 'supervise: unable to supervise none: No such file or directory' none
  ended 'no such folder, by its path' 111 "supervise: unable to supervise $room/none: No such file or directory" "$room/none"
  echo >file
  ended 'a file' 111 'supervise: unable to supervise file: Not a directory' file
  ended 'an empty word' 111 'supervise: unable to supervise : No such file or directory' ''
  ln -s nowhere dangling
  ended 'a link to nothing' 111 'supervise: unable to supervise dangling: No such file or directory' dangling
  is 'nothing was made' 'dangling file' "$(ls -A | grep -v '^ended' | xargs)"
}

# A folder without a run: supervise says so and tries again, as svscan does.
bare() {
  mkdir -p d/web
  start supervise reported d/web
  soon 'reported' 5 holds '^svscan: web: unable to run ./run: No such file or directory$' reported
  soon 'reported again' 5 has_lines 2 reported
  so 'supervise goes on' lives "$started"
  { echo '#!/bin/sh'; echo 'touch started'; echo 'exec sleep 1000'; } >d/web/.run
  chmod 755 d/web/.run
  mv d/web/.run d/web/run
  soon 'it starts once there is one' 5 test -e d/web/started
  soon 'it is up' 5 is_settled d/web
  ends_by 'dx' -dx d/web
}

# The folder by each kind of path.
paths() {
  sleeper d/web
  sleeper d/.hidden
  sleeper ...
  local path
  for path in d/web d/web/ "$room/$scenario/d/web" ./d/web d//web d/.hidden d/../d/web ... d/web/.; do
    rm -f "$path/starts"
    start supervise reported "$path"
    soon "$path: up" 5 is_settled "$path"
    soon "$path: started" 3 has_lines 1 "$path/starts"
    ends_by "$path" -dx "$path"
  done
  rm d/web/starts
  cd d/web || return
  start supervise ../../reported .
  soon '.: up' 5 is_settled .
  soon '.: started' 3 has_lines 1 starts
  ends_by . -dx .
  cd ../.. || return
  ln -s d/web linked
  start supervise reported linked
  soon 'a link: up' 5 is_settled d/web
  ended 'its folder' 111 'supervise: unable to lock d/web' d/web
  ends_by 'a link' -dx d/web
  is 'nothing is said' '' "$(cat reported)"
  is 'no .svscan' '' "$(find . -name .svscan)"
}

all='life exits down locked killed idle refused bare paths'
shift
scenarios=${*:-$all}
for scenario in $scenarios; do
  mkdir "$scenario"
  (
    cd "$scenario" || exit 1
    checked=0
    failed=0
    "$scenario" >"$room/$scenario.said" 2>&1
    [ -e "$room/$scenario.groups" ] && kill_groups "$room/$scenario.groups"
    echo "$checked $failed" >"$room/$scenario.count"
  ) &
done
wait
for scenario in $scenarios; do
  cat "$scenario.said"
  if [ -e "$scenario.count" ]; then
    read -r done_checks failures <"$scenario.count"
    checked=$((checked + done_checks))
    failed=$((failed + failures))
  else
    scenario= is "$scenario ends" yes no
  fi
done
scenario=
counts supervise

#!/usr/bin/env bash
# What no contract can say of svscan: that real services in real folders are started, kept, reported, logged and ended. Runs
# the program that the first word names over folders of its own, a scenario for each matter and all side by side, prints
# each check that fails, and at the end how many failed. Further words are the scenarios that are wanted, if not all
# are. The wanted values are those of the daemontools pages and of docs/FORMATS.md. It needs python3, for clients that
# send what svc never does.
# gate: 100 seconds, needs python3
folder=$(realpath "$(dirname "$0")") scripts=$(realpath "$(dirname "$0")/../scripts") contrib=$(realpath "$(dirname "$0")/../contrib")
. "$(dirname "$0")/checks.sh" "$1"
export LC_ALL=C
under=()

# Kills what the svscans of a scenario started: each of them with its services is a process group, and so is a scenario.
# The numbers of the groups are in a file.
kill_groups() {
  local group
  while read -r group; do kill_group "$group"; done <"$1"
}

leave() {
  local list mount
  for list in "$room"/*.groups; do [ -e "$list" ] && kill_groups "$list"; done
  for list in "$room"/*.mounts; do
    [ -e "$list" ] && while read -r mount; do umount "$mount" 2>/dev/null; done <"$list"
  done
  for _ in 1 2 3 4 5; do rm -rf "$room" 2>/dev/null && break; sleep 0.2; done
}
trap leave EXIT
trap 'exit 1' INT TERM HUP

# until_true SECONDS COMMAND..: tries the command each 50 ms, until it succeeds. The seconds are those of an idle machine: a
# busy one has six times as many, and at least as many tries.
until_true() {
  local end=$((${EPOCHREALTIME/[.,]/} + $1 * 6000000)) looks=$(($1 * 20))
  shift
  until "$@"; do
    ((looks -= 1)) || true
    [ "$looks" -gt 0 ] || [ "${EPOCHREALTIME/[.,]/}" -lt "$end" ] || return 1
    sleep 0.05
  done
}

# so NAME COMMAND..: the command succeeds
so() {
  local name=$1
  shift
  is "$name ($*)" yes "$("$@" >/dev/null 2>&1 && echo yes)"
}

# soon NAME SECONDS COMMAND..: the command succeeds within that time
soon() {
  local name=$1 seconds=$2
  shift 2
  is "$name (within $seconds s: $*)" yes "$(until_true "$seconds" "$@" >/dev/null 2>&1 && echo yes)"
}

# lies NAME LEAST MOST GOT: a number lies between two others
lies() {
  is "$1: $4 in $2 to $3" yes "$([ "$2" -le "$4" ] && [ "$4" -le "$3" ] && echo yes)"
}

not() {
  ! "$@"
}

# ended NAME STATUS REPORTED WORDS..: svscan with these words ends by itself, with this status, and reports this
ended() {
  local name=$1 status=$2 reported=$3
  shift 3
  timeout -k 1 30 "$program" svscan "$@" >ended.out 2>ended.reported </dev/null
  is "$name: status" "$status" "$?"
  is "$name: reported" "$reported" "$(cat ended.reported)"
  is "$name: printed" '' "$(cat ended.out)"
}

# start REPORTED WORDS..: starts svscan with these words, by the command `under` if there is one. What it says is added to
# the file REPORTED, and its number is left in svscan. By job control it gets a process group of its own, which has the
# signals as they are by default.
start() {
  local reported=$1
  shift
  set -m
  "${under[@]}" "$program" svscan "$@" </dev/null >>"$reported.out" 2>>"$reported" &
  svscan=$!
  disown
  set +m
  echo "$svscan" >>"$room/$scenario.groups"
}

# start_session REPORTED WORDS..: the same in a session of its own, as a service manager does. If svscan is a job of a shell,
# and is killed while a service is paused, the kernel sends HUP to all of its group.
start_session() {
  local reported=$1
  shift
  setsid "$program" svscan "$@" </dev/null >>"$reported.out" 2>>"$reported" &
  svscan=$!
  disown
  echo "$svscan" >>"$room/$scenario.groups"
}

# service FOLDER: makes a service, whose run is a script of sh from standard input. The folder appears with all it has:
# svscan ignores names that begin with a dot.
service() {
  local made
  made=$(dirname "$1")/.made
  mkdir -p "$made"
  { echo '#!/bin/sh'; cat; } >"$made/run"
  chmod 755 "$made/run"
  mv "$made" "$1"
}

# sleeper FOLDER: a service that notes each start with its number, and sleeps
sleeper() {
  service "$1" <<'END'
echo $$ >>starts
exec sleep 1000
END
}

# logger FOLDER: a service that logs its standard input into the folder main in it
logger() {
  service "$1" <<END
echo \$\$ >>starts
exec '$program' multilog s16777215 n100 ./main
END
}

# What the commands of dtools say of a service, and what its status record holds.
svc() { timeout 60 "$program" svc "$@"; }
is_served() { timeout 10 "$program" svok "$1"; }
stat_line() { timeout 10 "$program" svstat "$1" | sed -E 's/ [0-9]+ seconds/ N seconds/'; }
process() { od -An -tu4 -j12 -N4 --endian=little "$1/supervise/status" 2>/dev/null | tr -d ' '; }
wants() { [ "$(head -c 18 "$2/supervise/status" 2>/dev/null | tail -c 1 | tr '\0' o)" = "$1" ]; }
# Whether supervise is to end there, and the number of its phase.
phase() { od -An -tu1 -j18 -N2 "$1/supervise/status" 2>/dev/null | xargs; }
is_up() { [ "0$(process "$1")" -gt 0 ]; }
is_down() { [ "$(process "$1")" = 0 ]; }
# down for good, and not only between two lives
is_put_down() { wants d "$1" && is_down "$1"; }
# up, and the second after the start is over
is_settled() {
  local line
  line=$(timeout 10 "$program" svstat "$1")
  [[ $line == *': up (pid '* && $line != *', settling'* ]]
}
is_another() { is_up "$1" && [ "$(process "$1")" != "$2" ]; }
count() { local lines=0; [ -e "$1" ] && lines=$(wc -l <"$1"); echo "$lines"; }
has_lines() { [ "$(count "$2")" -ge "$1" ]; }
state() { sed 's/.*) //; s/ .*//' "/proc/$1/stat" 2>/dev/null; }
descriptors() { find "/proc/$1/fd" -type l | wc -l; }
# the tick at which a process began, a hundredth of a second, and how many there were from that one to the start of another
began() { sed 's/.*) //' "/proc/$1/stat" | cut -d ' ' -f 20; }
apart_ticks() { echo $(($(began "$2") - $1)); }
# the microseconds of the clock, now and when a file was changed last
micros() { echo "${EPOCHREALTIME/[.,]/}"; }
changed() { local at; at=$(stat -c %.6Y "$1"); echo "${at/[.,]/}"; }
no_sockets() { [ "$(sockets "$1")" = 0 ]; }
lives() { [[ $(state "$1") =~ [RSDTt] ]]; }
live() { lives "$1" && lives "$2"; }
# Whether nothing is left of a process that this shell started: its first thread ends before what it held is given back.
is_gone() { [ ! -e "/proc/$1" ]; }
is_stopped() { [ "$(state "$1")" = T ]; }
begins() { [[ $(timeout 10 "$program" svstat "$2") == "$1"* ]]; }
ends() { [[ $(timeout 10 "$program" svstat "$2") == *"$1" ]]; }
holds() { grep -q -e "$1" "$2"; }
sockets() { find -L "$@" -type s 2>/dev/null | wc -l; }

# One service through its life, by each letter.
life() {
  service d/web <<'END'
trap 'echo TERM >>signals; exit 0' TERM
for name in HUP ALRM INT USR1 USR2 QUIT; do trap "echo $name >>signals" $name; done
echo $$ >pid
while :; do sleep 0.1; done
END
  under=(bash -c 'umask 000; exec "$@"' bash)
  start reported d
  under=()
  soon 'up' 5 is_settled d/web
  local first
  first=$(cat d/web/pid)
  is 'up' "d/web: up (pid $first) N seconds" "$(stat_line d/web)"
  soon 'a trace is kept' 8 test -s d/web/supervise/trace
  is 'modes' '700 600 600 600 600 600' "$(modes d/web)"
  is 'sockets' 2 "$(sockets d/web)"
  is 'the record has 20 bytes' 20 "$(stat -c %s d/web/supervise/status)"
  is 'svok' 0 "$(is_served d/web; echo $?)"
  svc -d d/web
  soon 'd' 3 is_put_down d/web
  is 'd' 'd/web: down N seconds, normally up' "$(stat_line d/web)"
  is 'd: TERM' TERM "$(cat d/web/signals)"
  so 'd: the process is gone' not lives "$first"
  svc -u d/web
  soon 'u' 3 is_settled d/web
  is 'u: another process' "d/web: up (pid $(cat d/web/pid)) N seconds" "$(stat_line d/web)"
  so 'u: not the first one' is_another d/web "$first"
  local letter
  for letter in h:HUP a:ALRM i:INT 1:USR1 2:USR2 q:QUIT; do
    svc "-${letter%:*}" d/web
    soon "${letter%:*}" 3 holds "${letter#*:}" d/web/signals
  done
  first=$(process d/web)
  svc -t d/web
  soon 't: TERM' 3 has_lines 8 d/web/signals
  soon 't: it starts again' 4 is_another d/web "$first"
  soon 't: up' 4 is_settled d/web
  is 'signals' 'TERM HUP ALRM INT USR1 USR2 QUIT TERM' "$(paste -sd ' ' d/web/signals)"
  first=$(process d/web)
  svc -p d/web
  soon 'p' 3 is_stopped "$first"
  soon 'p: the line' 3 has_line "d/web: up (pid $first) N seconds, paused"
  svc -c d/web
  soon 'c' 3 not is_stopped "$first"
  soon 'c: the line' 3 has_line "d/web: up (pid $first) N seconds"
  svc -k d/web
  soon 'k: it starts again' 4 is_another d/web "$first"
  soon 'the trace has d' 8 trace_has d/web 'byte d: took TERM:'
  soon 'the trace has k' 8 trace_has d/web 'byte k: took KILL:'
  is 'the trace ends with a state' 1 "$("$program" trace d/web/supervise/trace | tail -n 1 | grep -c '^state ')"
  is 'nothing was reported' '' "$(cat reported reported.out)"
}

has_line() {
  [ "$(stat_line "${1%%:*}")" = "$1" ]
}

trace_has() {
  timeout 10 "$program" trace "$1/supervise/trace" >trace.text && holds "$2" trace.text
}

# The modes of what is in a supervise folder
modes() {
  (cd "$1/supervise" && stat -c %a . control ok status lock trace | paste -sd ' ')
}

# A umask that forbids all changes no mode. What another program left in supervise is replaced.
modes_kept() {
  sleeper d/web
  sleeper d/found
  mkdir d/found/supervise
  mkfifo d/found/supervise/control d/found/supervise/ok
  : >d/found/supervise/lock
  echo 'seventeen letters' >d/found/supervise/status
  under=(bash -c 'umask 777; exec "$@"' bash)
  start reported d
  under=()
  soon 'up' 5 is_settled d/web
  soon 'found: up' 5 is_settled d/found
  soon 'a trace is kept' 8 test -e d/web/supervise/trace
  is 'modes' '700 600 600 600 600 600' "$(modes d/web)"
  # A folder that was there keeps its mode, and so does a status record.
  is 'found: modes' '755 600 600 644 600 600' "$(modes d/found)"
  is 'found: served' 0 "$(is_served d/found; echo $?)"
  svc -d d/found
  soon 'found: d' 3 is_put_down d/found
  is 'nothing was reported' '' "$(cat reported reported.out)"
}

# The owner and the mode of a socket, of the status record and of the folder supervise
accesses() { stat -c '%U:%G %a' "$@" | paste -sd ' '; }

# An administrator gives a service to an account: that lasts under the next svscan, and nothing is opened wider.
delegated() {
  local file name names account=nobody
  [ "$(id -u)" = 0 ] || return
  chmod 711 "$room" . || return
  sleeper d/web
  sleeper d/other
  sleeper d/linked
  chmod 755 d d/web d/other d/linked
  start_session reported d
  soon 'up' 10 all_are is_settled d/web d/other d/linked
  names=(d/web/supervise/control d/web/supervise/ok d/web/supervise/status)
  chmod 710 d/web/supervise
  chown ":$(id -gn $account)" d/web/supervise
  chown "$account" d/web/supervise/control d/web/supervise/ok
  chgrp "$(id -gn $account)" d/web/supervise/status
  chmod 640 d/web/supervise/status
  accesses d/web/supervise "${names[@]}" >before
  accesses d/other/supervise d/other/supervise/{control,ok,status} >other
  as() { setpriv --reuid "$account" --regid "$(id -g $account)" --clear-groups "$@"; }
  is 'it may look' "d/web: up (pid $(process d/web)) N seconds" "$(as "$program" svstat d/web | sed -E 's/ [0-9]+ seconds/ N seconds/')"
  kill -KILL "$svscan"
  soon 'svscan is dead' 3 is_gone "$svscan"
  # Somebody who owns a folder supervise has put a link in the place of the folder in which sockets are made.
  mkdir -m 700 private
  chown "$account" d/linked/supervise d/linked/supervise/control
  ln -s "$PWD/private" d/linked/supervise/room
  echo kept >private/socket
  start_session reported2 d
  soon 'served' 10 all_are is_served d/web d/other
  soon 'taken up' 10 all_are is_settled d/web d/other
  is 'access is as before' "$(cat before)" "$(accesses d/web/supervise "${names[@]}")"
  is 'nobody else got any' "$(cat other)" "$(accesses d/other/supervise d/other/supervise/{control,ok,status})"
  as "$program" svc -d d/web
  soon 'it may bring it down' 5 is_put_down d/web
  is 'and look' 'd/web: down N seconds, normally up' "$(as "$program" svstat d/web | sed -E 's/ [0-9]+ seconds/ N seconds/')"
  is 'a new record has the same access' "$(cat before)" "$(accesses d/web/supervise "${names[@]}")"
  is 'it may do nothing else' 111 "$(as "$program" svc -W -d d/other >svc.out 2>&1; echo $?)"
  is 'no folder is left' no "$(exists d/web/supervise/room)"
  is 'what a link names is kept' kept "$(cat private/socket)"
  is 'and that service is reported' 'svscan: linked: unable to supervise: Permission denied' "$(sort -u reported2)"
  is 'nothing else was reported' '' "$(cat reported)"
}

# A service that exits at once.
exits() {
  service d/web <<'END'
echo >>starts
END
  start reported d
  soon 'it starts' 5 test -s d/web/starts
  soon 'it settles' 5 ends ', settling' d/web
  local before after begin
  before=$(count d/web/starts)
  local descriptors
  descriptors=$(descriptors "$svscan")
  begin=$(micros)
  sleep 5
  soon 'it starts again and again' 5 has_lines $((before + 3)) d/web/starts
  after=$(count d/web/starts)
  # One each second at most, and the seconds that have gone by are at least five.
  lies 'starts in 5 s' 3 $((2 + ($(micros) - begin) / 1000000)) $((after - before))
  svc -d d/web
  soon 'd' 3 is_put_down d/web
  lies 'no descriptor is left open' 0 $((descriptors + 2)) "$(descriptors "$svscan")"
  before=$(count d/web/starts)
  sleep 2.5
  is 'd: it stays down' "$before" "$(count d/web/starts)"
  svc -o d/web
  soon 'o' 3 has_lines $((before + 1)) d/web/starts
  sleep 2.5
  soon 'o: it is down' 5 has_run_once d/web
  is 'o: once' "$((before + 1)) down" "$(count d/web/starts) $(is_down d/web && echo down)"
  before=$(count d/web/starts)
  svc -u d/web
  soon 'u' 6 has_lines $((before + 3)) d/web/starts
  svc -o d/web
  soon 'o while it is up' 3 wants o d/web
  soon 'o while it is up: it ends' 5 has_run_once d/web
  sleep 1.5
  before=$(count d/web/starts)
  sleep 2
  is 'o while it is up: no more starts' "$before" "$(count d/web/starts)"
  svc -x d/web
  soon 'x while it is down: the next round starts it again' 8 has_lines $((before + 1)) d/web/starts
  is 'nothing was reported' '' "$(cat reported reported.out)"
}

# exit_says PATTERN FOLDER: how its last process ended, without the label
exit_says() { grep -qE "^$1 @[0-9a-f]{24}\$" "$2/supervise/exit"; }
# counts_are COUNTS FOLDER
counts_are() { [ "$(cat "$2/supervise/counts" 2>/dev/null)" = "$1" ]; }

# as many processes ended as began
counts_are_even() { grep -qE '^([0-9]+) \1$' "$1/supervise/counts"; }
# it was wanted once, and is down: a record without a process is between two lives, too
has_run_once() { wants o "$1" && [ "$(phase "$1")" = '0 4' ]; }
# its file exit speaks of the process that noted its number in pid
ended_last() { [ "$(cat "$1/pid")" = "$(cut -d ' ' -f 1 "$1/supervise/exit")" ]; }

# How processes end, and how many began and ended, in the files exit and counts.
endings() {
  service d/status <<'END'
echo $$ >pid
exit 3
END
  service d/killed <<'END'
echo $$ >pid
kill -SEGV $$
END
  sleeper d/web
  sleeper d/down
  : >d/down/down
  mkdir -p d/down/supervise
  echo '7 7' >d/down/supervise/counts
  start reported d
  local name first
  soon 'a status' 5 exit_says '[0-9]+ status 3' d/status
  soon 'a signal' 5 exit_says '[0-9]+ signal SEGV' d/killed
  svc -o d/status d/killed
  for name in status killed; do
    soon "$name: it ends for good" 8 has_run_once d/$name
    soon "$name: of its last process" 3 ended_last d/$name
    soon "$name: as many ended as began" 3 counts_are_even d/$name
  done
  soon 'up' 5 is_settled d/web
  first=$(process d/web)
  is 'none has ended' no "$(exists d/web/supervise/exit)"
  is 'one began' '1 0' "$(cat d/web/supervise/counts)"
  svc -t d/web
  soon 't: another one' 5 is_another d/web "$first"
  so 't: how it ended' exit_says "$first signal TERM" d/web
  soon 't: two began' 3 counts_are '2 1' d/web
  soon 'it settles' 5 is_settled d/web
  first=$(process d/web)
  svc -k d/web
  soon 'k: another one' 5 is_another d/web "$first"
  so 'k: how it ended' exit_says "$first signal KILL" d/web
  soon 'k: three began' 3 counts_are '3 2' d/web
  is 'one that never ran: the counts of an earlier svscan are gone' 'no no' \
    "$(exists d/down/supervise/counts) $(exists d/down/supervise/exit)"
  soon 'web is up again' 5 is_settled d/web
  first=$(process d/web)
  svc -d d/web
  soon 'd' 3 is_put_down d/web
  soon 'why says it' 8 why_says "Process $first ran .* and ended by SIGTERM after TERM \\(d\\)\\." d/web
  is 'modes' '600 600' "$(stat -c %a d/web/supervise/exit d/web/supervise/counts | xargs)"
  is 'nothing was reported' '' "$(cat reported)"
}
# finish FOLDER: gives a service a finish, a script of sh from standard input
finish() {
  { echo '#!/bin/sh'; cat; } >"$1/.finish"
  chmod 755 "$1/.finish"
  mv "$1/.finish" "$1/finish"
}
# the processes of the finishes of a service that live
finishing() { sort -u "$1/finishes" 2>/dev/null | while read -r number; do lives "$number" && [ "/proc/$number/cwd" -ef "$1" ] && echo "$number"; done; }
is_finishing() { [ -n "$(finishing "$1")" ]; }

# A finish runs after each death, with how the process ended, and the next process begins after it.
finishes() {
  service d/status <<'END'
echo run >>order
exit 3
END
  finish d/status <<'END'
echo "finish $*" >>order
sleep 0.3
echo "end in $(pwd -P)" >>order
END
  sleeper d/web
  finish d/web <<'END'
echo "$*" >>words
echo $$ >>finishes
while [ ! -e go ]; do sleep 0.05; done
END
  echo 0 >d/web/timeout-finish
  sleeper d/not
  finish d/not <<'END'
echo "$*" >>words
END
  chmod 644 d/not/finish
  sleeper d/bad
  printf '#!/no/such/program\n' >d/bad/finish
  chmod 755 d/bad/finish
  service d/pair <<'END'
echo $$ >>starts
exec sleep 1000
END
  finish d/pair <<'END'
echo "finish says $*"
END
  logger d/pair/log
  finish d/pair/log <<'END'
echo "$*" >>words
END
  start reported d
  soon 'up' 10 all_are is_settled d/web d/not d/bad d/pair d/pair/log
  soon 'some have ended' 10 has_lines 9 d/status/order
  is 'one after another' "run finish 3 0 end in $(realpath d/status)" "$(head -n 3 d/status/order | paste -sd ' ')"
  is 'and again' "$(head -n 3 d/status/order)" "$(sed -n '4,6p' d/status/order)"
  local first finish
  first=$(process d/web)
  svc -t d/web
  soon 'it finishes' 5 is_finishing d/web
  so 'how it ended is written at once' exit_says "$first signal TERM" d/web
  is 'with its words' '-1 15' "$(cat d/web/words)"
  is 'svstat says it' "d/web: up (pid $first) N seconds, finishing" "$(stat_line d/web)"
  so 'why says it' why_says " Process $first ended by SIGTERM\\. Its finish runs\\." d/web
  is 'it is not up' 99 "$(timeout 10 "$program" wait -u -t 1 d/web >/dev/null 2>&1; echo $?)"
  svc -kt d/web
  so 'its finish gets no signal' is_finishing d/web
  sleep 2.5
  is 'nothing begins next to it' 1 "$(count d/web/starts)"
  is 'its end is not reported' "$first" "$(process d/web)"
  svc -d d/web
  soon 'd is taken' 3 wants d d/web
  touch d/web/go
  soon 'it is down afterwards' 5 is_put_down d/web
  soon 'as many ended as began' 3 counts_are_even d/web
  sleep 1.5
  is 'it stays down' '1 1' "$(count d/web/starts) $(count d/web/words)"
  svc -u d/web
  soon 'u' 5 is_settled d/web
  rm d/web/go
  svc -k d/web
  soon 'it finishes again' 5 is_finishing d/web
  is 'killed' '-1 9' "$(tail -n 1 d/web/words)"
  touch d/web/go
  soon 'and starts again' 8 has_lines 3 d/web/starts
  svc -k d/not d/bad d/pair
  soon 'one that nobody can execute is none' 8 has_lines 2 d/not/starts
  is 'so it never ran' no "$(exists d/not/words)"
  soon 'one that can not be run is reported' 5 holds '^svscan: bad: unable to run ./finish: No such file or directory$' reported
  soon 'and the service starts again' 8 has_lines 2 d/bad/starts
  soon 'its output is that of the service' 8 holds '^finish says -1 9$' d/pair/log/main/current
  svc -t d/pair/log
  soon 'a logger has its own' 8 holds '^-1 15$' d/pair/log/words
  is 'nothing else was reported' 1 "$(count reported)"
  rm d/web/go
  svc -x d/.svscan
  soon 'the end of all waits for it' 8 is_finishing d/web
  so 'svscan is there' lives "$svscan"
  touch d/web/go
  soon 'and ends then' 10 is_gone "$svscan"
}

# A finish gets KILL at the end of its time: 5 seconds, or those of timeout-finish.
bounded_finish() {
  local name
  for name in short bad; do
    sleeper d/$name
    finish d/$name <<'END'
sed 's/.*) //' /proc/$$/stat | cut -d ' ' -f 20 >tick
echo $$ >>finishes
exec sleep 1000
END
  done
  echo 3 >d/short/timeout-finish
  echo soon >d/bad/timeout-finish
  start reported d
  soon 'up' 10 all_are is_settled d/short d/bad
  svc -k d/short d/bad
  soon 'both finish' 5 all_are is_finishing d/short d/bad
  soon 'it starts again after its time' 9 has_lines 2 d/short/starts
  is 'and is gone' '' "$(finishing d/short)"
  # What svscan reads of the clock and what the kernel notes of a process may differ by a few ticks.
  lies 'it has its time: ticks' 290 100000 "$(apart_ticks "$(cat d/short/tick)" "$(tail -n 1 d/short/starts)")"
  is 'a time that is no number' 'svscan: bad: timeout-finish is no number of seconds: 5 seconds count' "$(cat reported)"
  soon '5 seconds do' 10 has_lines 2 d/bad/starts
  lies 'it does not count: ticks' 490 100000 "$(apart_ticks "$(cat d/bad/tick)" "$(tail -n 1 d/bad/starts)")"
  is 'it is gone, too' '' "$(finishing d/bad)"
  is 'once each' '1 1' "$(count d/short/finishes) $(count d/bad/finishes)"
}

# deaf FOLDER: makes a service that TERM does not end
deaf() {
  service "$1" <<'END'
trap '' TERM
echo $$ >>starts
while :; do sleep 0.1; done
END
}
# the bytes k in the kept trace of a service
kills() { timeout 10 "$program" trace "$1/supervise/trace" 2>/dev/null | grep -cE '^[0-9]+ byte k: '; }

# A service that was asked to go and still runs gets k after the seconds in timeout-kill, once, and never without that file.
timed_kill() {
  local name first
  for name in timed free bad never back; do deaf d/$name; done
  echo 4 >d/timed/timeout-kill
  echo soon >d/bad/timeout-kill
  echo 0 >d/never/timeout-kill
  echo 8 >d/back/timeout-kill
  start reported d
  soon 'up' 10 all_are is_settled d/timed d/free d/bad d/never d/back
  first=$(process d/timed)
  svc -d d/timed d/free d/bad d/never d/back
  sleep 0.5
  so 'it has its time' lives "$first"
  svc -d d/timed
  svc -u d/back
  soon 'k ends it' 8 is_put_down d/timed
  sleep 6
  for name in free bad never back; do so "$name runs" is_up d/$name; done
  is 'a text that is no number' 'svscan: bad: timeout-kill is no number of seconds: it does not count' "$(cat reported)"
  svc -k d/free d/bad d/never
  soon 'down' 5 all_are is_put_down d/free d/bad d/never
  soon 'its trace has k once' 8 is_killed_once d/timed
  is 'u took it back' 0 "$(kills d/back)"
  # svscan's own end asks each service to go.
  rm d/back/timeout-kill
  echo 1 >d/back/timeout-kill
  svc -x d/.svscan
  soon 'svscan ends' 5 is_gone "$svscan"
  is 'once' '1 1' "$(count d/back/starts) $(kills d/back)"
  is 'nothing else was reported' 1 "$(wc -l <reported)"
}
is_killed_once() { [ "$(kills "$1")" = 1 ]; }

# svscan is killed after a service was asked to go: the next one gives it its time, and then k.
timed_kill_left() {
  local first
  deaf d/web
  deaf d/other
  echo 6 >d/web/timeout-kill
  start_session reported d
  soon 'up' 10 all_are is_settled d/web d/other
  first=$(process d/web)
  svc -d d/web
  soon 'it is asked to go' 3 wants d d/web
  kill -KILL "$svscan"
  soon 'svscan is dead' 3 is_gone "$svscan"
  sleep 6.5
  so 'it runs without svscan' lives "$first"
  start_session reported2 d
  soon 'served' 10 all_are is_served d/web d/other
  is 'it is the same process' "$first" "$(process d/web)"
  sleep 1
  so 'it has its time again' lives "$first"
  soon 'k ends it' 10 is_put_down d/web
  so 'the other one runs' is_settled d/other
  is 'one start' 1 "$(count d/web/starts)"
  is 'nothing was reported' '' "$(cat reported reported2)"
}

# The process says that it is ready by a newline at the descriptor of notification-fd, and only that process counts.
ready() {
  local first second
  announcer d/web
  announcer d/own
  touch d/own/setsid
  sleeper d/free
  announcer d/bad
  echo 3 >d/web/notification-fd
  echo 7 >d/own/notification-fd
  echo 12 >d/bad/notification-fd
  start reported d
  soon 'up' 10 all_are is_settled d/web d/own d/free d/bad
  soon 'they hear' 10 all_are listens d/web d/own d/bad
  first=$(process d/web)
  is 'it is not ready before it says so' 'd/web: up (pid N) N seconds' "$(plain_line d/web)"
  is 'wait -U takes its time' 99 "$(timeout 10 "$program" wait -U -t 1 d/web 2>late; echo $?)"
  is 'and says for what' 'wait: d/web: not ready in time' "$(cat late)"
  printf 'no line' >d/web/say
  sleep 0.5
  is 'a word without a newline does not count' no "$(exists d/web/supervise/ready)"
  echo >d/web/say
  soon 'wait -U ends' 3 timeout 10 "$program" wait -U -t 2 d/web
  is 'the file names the process' "$first" "$(cut -d' ' -f1 d/web/supervise/ready)"
  is 'svstat shows it' 'd/web: up (pid N) N seconds, ready N seconds' "$(plain_line d/web)"
  so 'why says it' why_says 'It has been ready since [0-9]' d/web
  so 'json has it' json_says '"ready":[0-9]+,"finishing":false,"backoff":null' d/web
  so 'metrics have it' metrics_say 'dtools_service_ready{service="d/web"} 1' d/web
  echo >d/own/say
  soon 'in a session of its own too' 3 timeout 10 "$program" wait -U -t 2 d/own
  echo >d/bad/say
  sleep 0.5
  is 'no file, or a bad one: nobody is ready' 'no no' "$(exists d/free/supervise/ready) $(exists d/bad/supervise/ready)"
  is 'a bad number is told' 'svscan: bad: notification-fd is no number from 3 to 9: it does not count' "$(sort -u reported)"
  # A child of the first process keeps the descriptor, and speaks when the second one runs.
  echo 'child' >d/web/say
  soon 'the child waits' 3 test -e d/web/child
  svc -k d/web
  soon 'another process' 5 is_another d/web "$first"
  soon 'which listens' 5 listens d/web
  second=$(process d/web)
  touch d/web/speak
  soon 'the child spoke' 3 test -e d/web/spoke
  sleep 0.5
  is 'the word of the process before does not count' no "$(exists d/web/supervise/ready)"
  echo >d/web/say
  soon 'its own does' 3 test -e d/web/supervise/ready
  is 'with its number' "$second" "$(cut -d' ' -f1 d/web/supervise/ready)"
  svc -d d/web
  soon 'down' 5 is_put_down d/web
  is 'the file is gone with the process' no "$(exists d/web/supervise/ready)"
}

# announcer FOLDER: a service that copies to its descriptor what comes to the FIFO say; a line `child` makes a child speak later
announcer() {
  service "$1" <<'END'
fd=$(cat notification-fd)
[ "$fd" -le 9 ] || fd=1
rm -f say
mkfifo say
exec 8<>say
echo $$ >listens
exec python3 - "$fd" <<'CODE'
import os, sys, time
fd, say = int(sys.argv[1]), os.open("say", os.O_RDWR)
while True:
    word = os.read(say, 100)
    if word == b"child\n":
        if os.fork() == 0:
            os.setsid()
            open("child", "w").close()
            while not os.path.exists("speak"): time.sleep(0.05)
            os.write(fd, b"\n")
            open("spoke", "w").close()
            os._exit(0)
    else:
        os.write(fd, word)
CODE
END
}
listens() { [ "$(cat "$1/listens")" = "$(process "$1")" ]; }
plain_line() { timeout 10 "$program" svstat "$1" | sed -E 's/[0-9]+ seconds/N seconds/g; s/pid [0-9]+/pid N/'; }
json_says() { timeout 10 "$program" svstat --json "$2" | grep -qE "$1"; }
metrics_say() { timeout 10 "$program" svstat --metrics "$2" | grep -qxF "$1"; }

# svscan is killed: what was said before stays, and what is said while there is no svscan is heard by the next one.
ready_left() {
  local name
  for name in before between after; do
    announcer d/$name
    echo 4 >d/$name/notification-fd
  done
  start_session reported d
  soon 'up' 10 all_are is_settled d/before d/between d/after
  soon 'they hear' 10 all_are listens d/before d/between d/after
  echo >d/before/say
  soon 'one is ready' 3 test -e d/before/supervise/ready
  cp d/before/supervise/ready said
  kill -KILL "$svscan"
  soon 'svscan is dead' 3 is_gone "$svscan"
  echo >d/between/say
  sleep 0.5
  start_session reported2 d
  soon 'served' 10 all_are is_served d/before d/between d/after
  soon 'its word waited' 5 test -e d/between/supervise/ready
  is 'of the process that said it' "$(process d/between)" "$(cut -d' ' -f1 d/between/supervise/ready)"
  is 'the first one is ready since then' "$(cat said)" "$(cat d/before/supervise/ready)"
  is 'svstat shows it' 'd/before: up (pid N) N seconds, ready N seconds' "$(plain_line d/before)"
  is 'the third is not ready' no "$(exists d/after/supervise/ready)"
  echo >d/after/say
  soon 'it says so later' 5 timeout 10 "$program" wait -U -t 2 d/after
  svc -d d/before d/between d/after
  soon 'down' 5 all_are is_put_down d/before d/between d/after
  is 'all files are gone' 'no no no' \
    "$(exists d/before/supervise/ready) $(exists d/between/supervise/ready) $(exists d/after/supervise/ready)"
  is 'nothing was reported' '' "$(cat reported reported2)"
}

# A program that speaks sd_notify(3), with contrib/dtools-notify in front, and one that a script next to it asks.
bridged() {
  service d/web <<END
exec "$contrib/dtools-notify" 3 python3 -c '
import os, socket, time
time.sleep(1.5)
room = socket.socket(socket.AF_UNIX, socket.SOCK_DGRAM)
room.sendto(b"STATUS=begins", os.environ["NOTIFY_SOCKET"])
while not os.path.exists("serves"): time.sleep(0.05)
room.sendto(b"STATUS=serves\nREADY=1", os.environ["NOTIFY_SOCKET"])
time.sleep(1000)'
END
  service d/asked <<'END'
(until [ -e serves ]; do sleep 0.1; done; echo >&3) &
exec sleep 1000 3>&-
END
  echo 3 | tee d/web/notification-fd >d/asked/notification-fd
  start reported d
  soon 'up' 10 all_are is_settled d/web d/asked
  sleep 1
  is 'neither is ready' 'no no' "$(exists d/web/supervise/ready) $(exists d/asked/supervise/ready)"
  touch d/web/serves d/asked/serves
  soon 'both are' 5 timeout 10 "$program" wait -U -t 3 d/web d/asked
  is 'each by the number of its process' "$(process d/web) $(process d/asked)" \
    "$(cut -d' ' -f1 d/web/supervise/ready) $(cut -d' ' -f1 d/asked/supervise/ready)"
  is 'dtools-notify without words' 'dtools-notify: usage: dtools-notify FD PROGRAM WORDS..' "$("$contrib/dtools-notify" 2>&1)"
  is 'nothing was reported' '' "$(cat reported)"
}

# After five ends within a minute that nobody asked for, the next start waits.
backs_off() {
  local before
  for name in free bad; do falls d/$name; done
  # Its sixth process ends when it is told to.
  service d/web <<'END'
echo $$ >>starts
[ "$(wc -l <starts)" != 6 ] || until [ -e go ]; do sleep 0.05; done
exit 1
END
  echo 600 >d/web/backoff
  echo 3601 >d/bad/backoff
  start reported d
  soon 'five ends' 12 test -s d/web/supervise/backoff
  is 'after five starts' 5 "$(count d/web/starts)"
  is 'the file names the last process' "$(tail -n 1 d/web/starts)" "$(cut -d' ' -f1 d/web/supervise/backoff)"
  so 'svstat shows it' holds_line 'd/web: up (pid N) N seconds, backoff N seconds' d/web
  so 'why says it, and until when' why_says 'Its processes end too often: the next start waits until [0-9]' d/web
  so 'json has it' json_says '"ready":null,"finishing":false,"backoff":[0-9]+' d/web
  so 'metrics have it' metrics_say 'dtools_service_backing_off{service="d/web"} 1' d/web
  sleep 3
  is 'it waits' 5 "$(count d/web/starts)"
  svc -t d/web
  sleep 1
  is 'a signal does not end that' 5 "$(count d/web/starts)"
  soon 'without the file it goes on' 5 has_lines 7 d/free/starts
  soon 'with a bad one too' 5 has_lines 7 d/bad/starts
  is 'which is told' 'svscan: bad: backoff is no number of seconds from 1 to 3600: it does not count' "$(sort -u reported)"
  svc -u d/web
  soon 'u ends it' 4 has_lines 6 d/web/starts
  is 'the file is gone' no "$(exists d/web/supervise/backoff)"
  touch d/web/go
  soon 'the sixth end is one too many again' 5 test -s d/web/supervise/backoff
  svc -d d/web
  soon 'd ends it, and starts nothing' 4 is_put_down d/web
  sleep 2
  is 'six starts' 6 "$(count d/web/starts)"
  # An end that somebody asked for counts neither as one of the five nor for the wait.
  sleeper d/asked
  echo 600 >d/asked/backoff
  soon 'asked: up' 10 is_settled d/asked
  for _ in 1 2 3 4 5 6; do
    before=$(process d/asked)
    svc -k d/asked
    soon 'asked: another' 4 is_another d/asked "$before"
  done
  is 'asked: it never waits' no "$(exists d/asked/supervise/backoff)"
}

# falls FOLDER: a service that notes each start, and ends at once
falls() {
  service "$1" <<'END'
echo $$ >>starts
exit 1
END
}
holds_line() { [ "$(plain_line "$2")" = "$1" ]; }

# The wait ends by itself at its time. A svscan that is killed meanwhile leaves it, and the next one starts anew.
backs_off_left() {
  falls d/web
  falls d/other
  echo 6 >d/web/backoff
  echo 600 >d/other/backoff
  start_session reported d
  soon 'both wait' 12 both_wait
  local from
  from=$(changed d/web/supervise/backoff)
  soon 'the first goes on' 12 has_lines 6 d/web/starts
  lies 'after its time: tenths of a second' 50 300 $((($(changed d/web/starts) - from) / 100000))
  kill -KILL "$svscan"
  soon 'svscan is dead' 3 is_gone "$svscan"
  is 'the other one waited' 5 "$(count d/other/starts)"
  start_session reported2 d
  soon 'the next svscan starts it at once' 5 has_lines 6 d/other/starts
  is 'without the file of the wait' no "$(exists d/other/supervise/backoff)"
  soon 'and counts anew' 12 test -s d/other/supervise/backoff
  is 'from nothing' 10 "$(count d/other/starts)"
  is 'nothing was reported' '' "$(cat reported reported2)"
}
both_wait() { [ -s d/web/supervise/backoff ] && [ -s d/other/supervise/backoff ]; }

# svscan is killed while a finish runs: the next one starts nothing until it has ended, and ends it in its time.
killed_finish() {
  local name first
  for name in web late; do
    sleeper d/$name
    finish d/$name <<'END'
echo $$ >>finishes
while [ ! -e go ]; do sleep 0.05; done
END
  done
  echo 0 >d/web/timeout-finish
  echo 9 >d/late/timeout-finish
  start_session reported d
  soon 'up' 10 all_are is_settled d/web d/late
  first=$(process d/web)
  svc -k d/web d/late
  soon 'both finish' 5 all_are is_finishing d/web d/late
  kill -KILL "$svscan"
  soon 'svscan is dead' 3 is_gone "$svscan"
  so 'a finish runs on' is_finishing d/web
  start_session reported2 d
  soon 'it is reported' 10 holds "^svscan: web: process $(finishing d/web) still runs\$" reported2
  so 'nothing is up' all_are is_down d/web d/late
  soon 'one whose time is over is ended' 15 has_lines 2 d/late/starts
  is 'by KILL' '' "$(finishing d/late)"
  is 'nothing begins next to the other' 1 "$(count d/web/starts)"
  so 'how the process ended is kept' exit_says "$first signal KILL" d/web
  touch d/web/go
  soon 'it starts after its finish' 8 has_lines 2 d/web/starts
  is 'which ran once' '1 1' "$(count d/web/finishes) $(count d/late/finishes)"
  soon 'both are up' 8 all_are is_settled d/web d/late
}

exists() { [ -e "$1" ] && echo yes || echo no; }
why_says() { timeout 10 "$program" why "$2" | grep -qE "$1"; }

# No run, one that can't be executed, and one that is no program.
no_run() {
  mkdir -p d/missing d/closed d/garbage
  printf '#!/bin/sh\necho >>starts\nexec sleep 1000\n' >good
  cp good d/closed/run
  chmod 644 d/closed/run
  head -c 4000 /dev/urandom | tr -d '\n' | { printf '\177ELF\n'; cat; } >d/garbage/run
  chmod 755 d/garbage/run
  sleeper d/sound
  start reported d
  soon 'another one is up' 5 is_up d/sound
  soon 'reported of missing' 5 holds '^svscan: missing: unable to run ./run: No such file or directory$' reported
  soon 'reported of closed' 5 holds '^svscan: closed: unable to run ./run: Permission denied$' reported
  local name
  for name in missing closed garbage; do
    is "$name is served" 0 "$(is_served d/$name; echo $?)"
    svc -d d/$name
    soon "$name: d" 3 is_put_down d/$name
    svc -o d/$name
    soon "$name: o" 3 wants o d/$name
    svc -u d/$name
    soon "$name: u" 3 wants u d/$name
    cp good d/$name/good
    chmod 755 d/$name/good
    mv d/$name/good d/$name/run
    soon "$name: starts once it is mended" 4 test -s d/$name/starts
    soon "$name: up" 4 is_settled d/$name
    is "$name: started once" 1 "$(count d/$name/starts)"
  done
  is 'the other one is as it was' 1 "$(count d/sound/starts)"
}

# Services whose links are taken away.
links() {
  mkdir d
  sleeper real
  sleeper pair
  logger pair/log
  ln -s ../real d/web
  ln -s ../pair d/pair
  start reported d
  soon 'up' 5 is_settled real
  soon 'pair: up' 5 is_settled pair/log
  local first
  first=$(process real)
  rm d/web d/pair
  sleep 6
  is 'it goes on' "$first" "$(process real)"
  is 'it is still served' 0 "$(is_served real; echo $?)"
  svc -dx real
  soon 'dx: the process ends' 3 not lives "$first"
  soon 'dx: svok' 3 not is_served real
  is 'dx: svok' 100 "$(is_served real; echo $?)"
  soon 'dx: no sockets' 3 no_sockets real
  is 'dx: sockets' 0 "$(sockets real)"
  is 'dx: svc warns' 'svc: warning: unable to control real: not running' "$(svc -u real 2>&1)"
  is 'dx: svstat' 'real: supervise not running' "$(stat_line real)"
  svc -dx pair pair/log
  soon 'pair: no longer served' 3 not is_served pair
  soon 'pair: the logger is no longer served' 3 not is_served pair/log
  soon 'pair: no sockets' 3 no_sockets pair
  is 'pair: sockets' 0 "$(sockets pair)"
  sleep 6
  is 'neither starts again' '1 1 1' "$(count real/starts) $(count pair/starts) $(count pair/log/starts)"
  ln -s ../real d/other
  ln -s ../pair d/pair
  soon 'a new link: it starts again' 8 has_lines 2 real/starts
  soon 'a new link: the pair too' 8 has_lines 2 pair/log/starts
  is 'nothing was reported' '' "$(cat reported reported.out)"
}

# A service that ignores TERM.
stubborn() {
  service d/web <<'END'
trap '' TERM
echo $$ >>starts
while :; do sleep 1; done
END
  start reported d
  soon 'up' 5 is_settled d/web
  local first
  first=$(process d/web)
  svc -d d/web
  soon 'd' 3 wants d d/web
  sleep 1
  is 'd: still up' "d/web: up (pid $first) N seconds, want down" "$(stat_line d/web)"
  svc -k d/web
  soon 'k' 3 is_down d/web
  is 'k: down' 'd/web: down N seconds, normally up' "$(stat_line d/web)"
  sleep 2
  is 'k: it stays down' 1 "$(count d/web/starts)"
  svc -u d/web
  soon 'u' 3 is_up d/web
  kill -KILL -- "-$svscan"
  soon 'svscan is dead' 3 is_gone "$svscan"
  # The end of svscan waits for it.
  start reported d 1
  soon 'one round: up' 5 is_settled d/web
  soon 'one round: d was sent' 5 wants d d/web
  soon 'one round: x was sent' 5 ends ', want down, exiting' d/web
  so 'one round: svscan waits' lives "$svscan"
  soon 'one round: that is reported' 8 holds "^svscan: web: process $(process d/web) still runs$" reported
  soon 'one round: and again' 8 has_lines 2 reported
  svc -k d/web
  soon 'one round: k ends both' 4 not lives "$svscan"
  is 'one round: down' 0 "$(process d/web)"
  is 'one round: sockets' 0 "$(sockets d)"
}

# A service that is killed.
killed_service() {
  sleeper d/web
  start reported d
  soon 'up' 5 is_settled d/web
  local first
  first=$(process d/web)
  kill -KILL "$first"
  soon 'it starts again' 3 is_another d/web "$first"
  soon 'up again' 4 is_settled d/web
  is 'by its own number' "$(tail -n 1 d/web/starts)" "$(process d/web)"
  is 'once' 2 "$(count d/web/starts)"
}

# Loggers that are killed. The lines of flow run on while its logger is killed; calm writes when it is reported to.
killed_logger() {
  service d/flow <<'END'
i=0
while [ $i -lt 40000 ]; do
  i=$((i + 1))
  echo "line $((100000000 + i)) of the stream"
  [ $((i % 100)) = 0 ] && sleep 0.01
done
exec sleep 1000
END
  service d/calm <<'END'
for step in 1 2 3; do
  until [ -e go$step ]; do sleep 0.05; done
  i=0
  while [ $i -lt 20000 ]; do i=$((i + 1)); echo "step $step line $i"; done
  : >done$step
done
exec sleep 1000
END
  logger d/flow/log
  logger d/calm/log
  start reported d
  soon 'calm: its logger is up' 5 is_settled d/calm/log
  local kills=0 first
  for _ in 1 2 3; do
    first=$(process d/flow/log)
    kill -KILL "$first" && kills=$((kills + 1))
    soon "flow: another logger ($kills)" 4 is_another d/flow/log "$first"
    sleep 1.1
  done
  : >d/calm/go1
  soon 'calm: step 1' 10 ends_with 'step 1 line 20000' d/calm/log/main/current
  first=$(process d/calm/log)
  kill -KILL "$first"
  soon 'calm: another logger' 4 is_another d/calm/log "$first"
  : >d/calm/go2
  soon 'calm: step 2' 10 ends_with 'step 2 line 20000' d/calm/log/main/current
  soon 'calm: its logger is up again' 4 is_settled d/calm/log
  first=$(process d/calm/log)
  svc -p d/calm/log
  soon 'calm: its logger is stopped' 3 is_stopped "$first"
  : >d/calm/go3
  sleep 1
  kill -KILL "$first"
  soon 'calm: a third logger' 4 is_another d/calm/log "$first"
  soon 'calm: step 3' 10 ends_with 'step 3 line 20000' d/calm/log/main/current
  for step in 1 2 3; do seq -f "step $step line %.0f" 20000; done >wanted
  is 'calm: no line is lost, doubled or moved' same "$(cmp wanted d/calm/log/main/current 2>&1 && echo same)"
  soon 'flow: its last line' 20 holds 'line 100040000 of the stream' d/flow/log/main/current
  is 'flow: one life of the service' 1 "$(grep -c 'line 100000001 ' d/flow/log/main/current)"
  is 'flow: order, and what may be missing' 'in order' "$(python3 ../stream.py d/flow/log/main/current "$kills")"
}

ends_with() {
  [ "$(tail -n 1 "$2")" = "$1" ]
}

# What a killed logger had read and not written may be missing: at most one block of 32,768 bytes a kill, and one line a
# kill may be torn by that. No line comes twice or before an earlier one.
cat >stream.py <<'END'
import re, sys
kills = int(sys.argv[2])
numbers, torn = [], []
for line in open(sys.argv[1], "rb").read().split(b"\n")[:-1]:
    found = re.fullmatch(rb"line 1(\d{8}) of the stream", line)
    if found:
        numbers.append(int(found[1]))
    else:
        torn.append(line)
rises = all(a < b for a, b in zip(numbers, numbers[1:]))
missing = 40000 - len(numbers)
if not rises:
    print("not in order")
elif len(torn) > kills:
    print("torn:", torn[:5])
elif missing * 29 > kills * (32768 + 58):
    print("missing:", missing)
else:
    print("in order")
END

# keep_processes SERVICE..: the process of each, whether it is stopped, and since when the record has it
keep_processes() {
  local name
  for name in "$@"; do
    echo "$name $(process "d/$name") $(is_stopped "$(process "d/$name")" && echo stopped) $(stamp "d/$name")"
  done
}
# the label of a status record: when the service came up or went down
stamp() { od -An -tx1 -N12 "$1/supervise/status" | tr -d ' \n'; }

# svscan itself is killed: what it started runs on, and the next svscan takes each service up as it was.
killed_svscan() {
  sleeper d/web
  sleeper d/paused
  sleeper d/put
  sleeper d/once
  sleeper d/dies
  # It gave its streams away, and a child of it holds them.
  service d/quiet <<'END'
echo $$ >>starts
sleep 900 &
exec sleep 1000 </dev/null >/dev/null 2>&1
END
  logger d/quiet/log
  # It writes a line at each HUP.
  service d/pair <<'END'
echo $$ >>starts
n=0
trap 'n=$((n + 1)); echo "line $n"' HUP
trap 'echo "last line"; exit' TERM
echo "line 0"
while :; do sleep 0.05; done
END
  logger d/pair/log
  start_session reported1 d
  soon 'up' 10 all_are is_settled d/web d/paused d/put d/once d/dies d/quiet d/pair d/pair/log
  soon 'its line is logged' 5 has_lines 1 d/pair/log/main/current
  svc -p d/paused
  svc -d d/put
  svc -o d/once
  soon 'p' 5 ends ', paused' d/paused
  soon 'd' 5 is_put_down d/put
  soon 'o' 5 wants o d/once
  local kept pair
  keep_processes web paused put once quiet pair >kept
  pair=$(process d/pair)
  kill -KILL "$svscan"
  soon 'svscan is dead' 3 is_gone "$svscan"
  is 'no longer served' 'd/web: supervise not running' "$(stat_line d/web)"
  kill -KILL "$(process d/dies)"
  kill -HUP "$pair"
  sleep 0.5
  so 'a service that writes meanwhile runs on' lives "$pair"
  start_session reported2 d
  soon 'all are served' 10 all_are is_served d/web d/paused d/put d/once d/dies d/quiet d/pair d/pair/log
  soon 'what died is started again' 10 has_lines 2 d/dies/starts
  keep_processes web paused put once quiet pair >now
  is 'each is as it was' '' "$(diff kept now)"
  is 'each has its line' "d/web: up (pid $(process d/web)) N seconds" "$(stat_line d/web)"
  is 'paused' "d/paused: up (pid $(process d/paused)) N seconds, paused" "$(stat_line d/paused)"
  is 'put down' 'd/put: down N seconds, normally up' "$(stat_line d/put)"
  soon 'what was written meanwhile is logged' 10 has_lines 2 d/pair/log/main/current
  kill -HUP "$pair"
  soon 'and what is written now' 5 has_lines 3 d/pair/log/main/current
  is 'each line once' 'line 0 line 1 line 2' "$(paste -sd ' ' d/pair/log/main/current)"
  # Each is served like any other.
  kept=$(process d/web)
  svc -t d/web
  soon 't ends it, and it starts again' 6 is_another d/web "$kept"
  so 'how it ended is not known' holds "^$kept unknown @" d/web/supervise/exit
  svc -c d/paused
  soon 'c' 5 not is_stopped "$(process d/paused)"
  svc -d d/paused d/pair
  soon 'd' 6 is_put_down d/paused
  soon 'd' 6 is_put_down d/pair
  soon 'the last words are logged' 5 ends_with 'last line' d/pair/log/main/current
  svc -k d/once
  soon 'once: it is not started again' 6 is_down d/once
  svc -u d/put
  soon 'u' 6 is_settled d/put
  # A third one, after TERM: that is no other end.
  kept=$(process d/web)
  kill -TERM "$svscan"
  soon 'TERM ends svscan' 3 is_gone "$svscan"
  start_session reported3 d
  soon 'served again' 10 all_are is_served d/web d/once d/paused
  is 'the same process' "$kept" "$(process d/web)"
  is 'down is down' '0 0' "$(process d/paused) $(process d/once)"
  is 'no second copies' '2 1 1 1 1' "$(for name in web once paused quiet pair; do count d/$name/starts; done | paste -sd ' ')"
  is 'nothing was reported' '' "$(cat reported1 reported2 reported3)"
}

# If svscan has no descriptor left the kernel can't be asked of a process that it adopted: that lives on, and is not
# started a second time. What ends meanwhile is found once there are descriptors again. A finish whose time is over gets
# KILL only then, since its number might be that of another process.
starved() {
  local web hard
  sleeper d/web
  sleeper d/dies
  sleeper d/late
  finish d/late <<'END'
echo $$ >>finishes
exec sleep 1000
END
  echo 4 >d/late/timeout-finish
  start_session reported1 d
  soon 'up' 10 all_are is_settled d/web d/dies d/late
  web=$(process d/web)
  kill -KILL "$svscan"
  soon 'svscan is dead' 3 is_gone "$svscan"
  start_session reported2 d
  soon 'all are served' 10 all_are is_served d/web d/dies d/late
  soon 'and adopted' 5 begins "d/web: up (pid $web)" d/web
  sleep 1.5
  svc -k d/late
  soon 'one finishes' 10 is_finishing d/late
  soon 'its finish has begun' 5 has_lines 1 d/late/finishes
  hard=$(ulimit -Hn)
  prlimit --pid "$svscan" --nofile="3:$hard"
  kill -KILL "$(process d/dies)"
  # Nothing may happen in that time, in which the 5 seconds of the finish are over.
  sleep 8
  so 'it lives' lives "$web"
  is 'no second copy' 1 "$(count d/web/starts)"
  so 'a finish whose time is over gets no KILL while the kernel can not be asked' lives "$(cat d/late/finishes)"
  prlimit --pid "$svscan" --nofile="$hard:$hard"
  soon 'it gets KILL then, and the service starts' 15 has_lines 2 d/late/starts
  is 'that finish is gone' '' "$(finishing d/late)"
  soon 'what ended meanwhile is started again' 15 has_lines 2 d/dies/starts
  is 'it is as it was' "d/web: up (pid $web) N seconds" "$(stat_line d/web)"
  svc -t d/web
  soon 't ends it, and it starts again' 6 is_another d/web "$web"
  is 'each start by itself' '2 2' "$(count d/web/starts) $(count d/dies/starts)"
}

# A status record that can't be replaced is written over. Other records are tried again, and that is said once.
unwritten() {
  sleeper d/web
  start reported d
  soon 'up' 5 is_settled d/web
  local web
  web=$(process d/web)
  mkdir d/web/supervise/status.new d/web/supervise/exit.new
  svc -d d/web
  soon 'd ends it' 5 not lives "$web"
  soon 'the record says so' 5 is_put_down d/web
  soon 'it is reported' 5 holds '^svscan: web: unable to write exit: ' reported
  rmdir d/web/supervise/status.new d/web/supervise/exit.new
  soon 'it is written' 5 holds "^$web signal TERM " d/web/supervise/exit
  soon 'that is said' 5 holds '^svscan: web: all records are written again$' reported
  svc -u d/web
  soon 'u' 5 is_another d/web "$web"
  is 'nothing else was reported' 2 "$(count reported)"
}

# svscan is killed soon after it starts, 30 times. There is never a second copy of a service. A process of which a kill kept the
# record from being written is taken up, or it is said that it still runs.
killed_early() {
  sleeper d/web
  sleeper d/pair
  logger d/pair/log
  local copies=
  for _ in $(seq 30); do
    start_session reported d
    sleep "0.0$((RANDOM % 60 + 10))"
    kill -KILL "$svscan"
    until_true 3 is_gone "$svscan"
    copies+=$(copies_of web pair)
  done
  is 'second copies' '' "$copies"
  start_session reported2 d
  local name
  for name in web pair pair/log; do
    soon "$name is up, or said to run" 10 is_found "$name"
    is "one $name" 1 "$(living "d/$name" | wc -l)"
  done
}
# Whether the one process of a service is the one that svscan has, or is said to run still.
is_found() {
  local number
  number=$(living "d/$1")
  { [ "$(process "d/$1")" = "$number" ] && is_settled "d/$1"; } || holds "^svscan: $1: process $number still runs$" reported2
}
# the processes of the starts of a service that live; a number that the system has given to a process elsewhere is none
living() { sort -u "$1/starts" | while read -r number; do lives "$number" && [ "/proc/$number/cwd" -ef "$1" ] && echo "$number"; done; }
# those of these services of which two live
copies_of() { for name; do [ "$(living "d/$name" 2>/dev/null | wc -l)" -lt 2 ] || echo "$name "; done; }

# svscan is killed after it has started services and before their places name the processes. The next one takes up each
# process by its folder, and starts the service that has none.
unnamed() {
  sleeper d/web
  sleeper d/other
  sleeper d/pair
  logger d/pair/log
  start_session reported d
  soon 'all are up' 10 all_are is_settled d/web d/other d/pair d/pair/log
  local before log name
  before=$(process d/web; process d/other; process d/pair)
  log=$(process d/pair/log)
  kill -KILL "$svscan"
  soon 'svscan is dead' 3 is_gone "$svscan"
  soon 'the logger ends with its input' 5 not lives "$log"
  for name in web other pair pair/log; do
    awk 'NR == 1 { $1 = 0; $2 -= 100; print }' "d/$name/supervise/place" >place
    cp place "d/$name/supervise/place"
    rm "d/$name/supervise/process"
  done
  start_session reported2 d
  soon 'all are up again' 10 all_are is_settled d/web d/other d/pair d/pair/log
  is 'the same processes' "$before" "$(process d/web; process d/other; process d/pair)"
  is 'starts' '1 1 1 2' "$(count d/web/starts) $(count d/other/starts) $(count d/pair/starts) $(count d/pair/log/starts)"
  is 'reported' '' "$(cat reported2)"
}

# A record counts in its own boot: in another one each service begins by its row, and a process of that number is no longer
# the service's.
new_boot() {
  sleeper d/put
  sleeper d/web
  sleeper d/same
  start reported d
  soon 'up' 5 all_are is_settled d/put d/web d/same
  svc -d d/put d/same
  soon 'put down' 5 is_put_down d/put
  soon 'put down' 5 is_put_down d/same
  kill -KILL "$svscan"
  soon 'svscan is dead' 3 is_gone "$svscan"
  local web
  web=$(process d/web)
  # Another boot, and a process that began at another time.
  sed -i '1s/ [^ ]*$/ 00000000-0000-0000-0000-000000000000/' d/put/supervise/process d/put/supervise/place
  sed -i '1s/ [0-9]* / 1 /' d/web/supervise/process d/web/supervise/place
  kill -KILL "$web"
  (cd / && exec sleep 1000) &
  local other=$!
  sed -i "1s/^[0-9]*/$other/" d/web/supervise/process d/web/supervise/place
  start reported2 d
  soon 'by its row' 8 is_settled d/put
  soon 'not another process' 8 has_lines 2 d/web/starts
  soon 'web is up' 5 is_settled d/web
  is 'the same boot' '1 0' "$(count d/same/starts) $(process d/same)"
  svc -d d/web
  soon 'd' 5 is_put_down d/web
  so 'the other process runs' lives "$other"
  kill -KILL "$other"
}

# If the folder of a process can't be looked into, it is adopted all the same.
other_user() {
  setpriv --bounding-set -sys_ptrace --inh-caps -sys_ptrace true 2>/dev/null || return
  service d/web <<'END'
echo $$ >>starts
exec setpriv --reuid 65534 --regid 65534 --clear-groups sleep 1000
END
  under=(setpriv --bounding-set -sys_ptrace --inh-caps -sys_ptrace)
  start reported d
  soon 'up' 5 is_settled d/web
  local web
  web=$(process d/web)
  kill -KILL "$svscan"
  soon 'svscan is dead' 3 is_gone "$svscan"
  start reported2 d
  under=()
  soon 'served' 5 is_served d/web
  sleep 1.5
  is 'the same process' "$web 1" "$(process d/web) $(count d/web/starts)"
  svc -d d/web
  soon 'd' 5 is_put_down d/web
  is 'nothing was reported' '' "$(cat reported reported2)"
}

# record_earlier SERVICE PID: a record of 18 bytes, as an earlier dtools left it.
record_earlier() {
  local digits
  digits=$(printf '%08x' "$2")
  printf '\x40\0\0\0\x3a\x4f\xc8\x8a\0\0\0\0'"$(printf '\\x%s' "${digits:6:2}" "${digits:4:2}" "${digits:2:2}" "${digits:0:2}")"'\0u' \
    >"$1/supervise/status"
}

# Such a record names a process that still runs.
earlier_record() {
  sleeper d/web
  mkdir d/web/supervise
  (cd d/web && exec sleep 1000) &
  local old=$!
  soon 'an earlier process is there' 5 test "/proc/$old/cwd" -ef d/web
  record_earlier d/web "$old"
  is 'it has 18 bytes' 18 "$(stat -c %s d/web/supervise/status)"
  start reported d
  soon 'it is reported' 8 holds "^svscan: web: process $old still runs$" reported
  kill -KILL "$svscan"
  soon 'svscan is dead' 3 is_gone "$svscan"
  start_session reported2 d
  soon 'it is reported by the next one' 8 holds "^svscan: web: process $old still runs$" reported2
  is 'no second copy' 0 "$(count d/web/starts)"
  kill -KILL "$old"
  soon 'then it starts' 4 has_lines 1 d/web/starts
}

# Such a record names a process that runs elsewhere: in another folder of the same file system, and in one of another
# file system that has the same number there. Neither is the service.
elsewhere() {
  sleeper d/near
  mkdir d/far near far
  local mounted=no
  if mount -t tmpfs none d/far 2>/dev/null; then
    echo "$PWD/d/far" >>"$room/$scenario.mounts"
    if mount -t tmpfs none far 2>/dev/null; then
      echo "$PWD/far" >>"$room/$scenario.mounts"
      mounted=yes
      is 'two folders of one number' "$(stat -c %i far)" "$(stat -c %i d/far)"
    fi
  fi
  cp d/near/run d/far/run
  mkdir d/near/supervise d/far/supervise
  local each
  for each in near far; do
    (cd $each && exec sleep 20) &
    record_earlier d/$each $!
  done
  start reported d
  soon 'near: up' 5 is_settled d/near
  soon 'far: up' 5 is_settled d/far
  is 'nothing was reported' '' "$(cat reported)"
  is 'each began once' '1 1' "$(count d/near/starts) $(count d/far/starts)"
}

# A logger that is down for a while.
late_logger() {
  service d/web <<'END'
i=0
while [ $i -lt 60000 ]; do i=$((i + 1)); echo "line $i of the first"; done
: >done1
until [ -e go2 ]; do sleep 0.05; done
i=0
while [ $i -lt 2000 ]; do i=$((i + 1)); echo "line $i of the second"; done
: >done2
exec sleep 1000
END
  logger d/web/log
  : >d/web/log/down
  start reported d
  soon 'the service is up' 5 is_settled d/web
  is 'the logger is down' 'd/web/log: down N seconds' "$(stat_line d/web/log)"
  so 'the service waits' test ! -e d/web/done1
  so 'no log' test ! -e d/web/log/main
  svc -u d/web/log
  soon 'all is logged' 30 ends_with 'line 60000 of the first' d/web/log/main/current
  soon 'the logger is settled' 4 is_settled d/web/log
  is 'the logger is up' "d/web/log: up (pid $(process d/web/log)) N seconds, normally down" "$(stat_line d/web/log)"
  svc -d d/web/log
  soon 'd' 3 is_put_down d/web/log
  : >d/web/go2
  soon 'a little is kept' 5 test -e d/web/done2
  svc -u d/web/log
  soon 'it is logged too' 10 ends_with 'line 2000 of the second' d/web/log/main/current
  { seq -f 'line %.0f of the first' 60000; seq -f 'line %.0f of the second' 2000; } >wanted
  is 'no line is lost, doubled or moved' same "$(cmp wanted d/web/log/main/current 2>&1 && echo same)"
}

# Folders that come, get another name, and go, while svscan runs.
changes() {
  mkdir d elsewhere
  sleeper d/first
  sleeper d/.hidden
  echo 'a file' >d/file
  ln -s nosuch d/nowhere
  service d/alone <<'END'
echo a line
exec sleep 1000
END
  echo 'no folder' >d/alone/log
  start reported d
  soon 'up' 5 is_settled d/first
  soon 'a file named log makes no pair' 3 holds 'a line' reported.out
  sleeper d/second
  mkdir d/.later
  cp d/second/run d/.later/run
  : >d/.later/down
  mv d/.later d/later
  soon 'added: up' 8 is_up d/second
  soon 'added with down' 8 is_put_down d/later
  is 'added with down: down' 'd/later: down N seconds' "$(stat_line d/later)"
  so 'a name with a dot is passed over' test ! -e d/.hidden/supervise
  local first
  first=$(process d/first)
  mv d/first d/renamed
  soon 'another name: reported as locked' 8 holds '^svscan: renamed: unable to lock$' reported
  is 'another name: it goes on' "$first" "$(process d/renamed)"
  svc -dx d/renamed
  soon 'another name: ended' 3 not lives "$first"
  soon 'another name: it starts again' 8 is_another d/renamed "$first"
  first=$(process d/second)
  mv d/second elsewhere/second
  sleep 6
  is 'moved away: it goes on' "$first" "$(process elsewhere/second)"
  svc -dx elsewhere/second
  soon 'moved away: ended' 3 not is_served elsewhere/second
  sleep 6
  is 'moved away: it does not start again' 1 "$(count elsewhere/second/starts)"
  # Names that are no text are reported, once a round, and the others are services as ever.
  first=$(process d/renamed)
  local begin
  begin=$(micros)
  : >"d/$(printf '\377')"
  mkdir "d/$(printf 'web\300')"
  sleeper d/third
  soon 'names that are no text' 8 holds '^svscan: 2 names are not text$' reported
  soon 'names that are no text: another one starts' 8 is_up d/third
  is 'names that are no text: it goes on' "$first" "$(process d/renamed)"
  soon 'names that are no text: in the next round too' 8 are_not_text 2
  sleep 4
  # One more if a round began between the two names.
  lies 'names that are no text: once a round' 2 $((2 + ($(micros) - begin) / 5000000 + 1)) "$(grep -c 'names are not text$' reported)"
  rm -r d/*$'\377'* d/*$'\300'*
  sleep 6
  local reported
  reported=$(count reported)
  sleep 6
  is 'names that are no text: gone' "$reported" "$(count reported)"
  is 'nothing else was reported' '' "$(grep -v -e '^svscan: renamed: unable to lock$' -e '^svscan: [12] names are not text$' reported)"
}

# are_not_text NUMBER: that is reported so often
are_not_text() { [ "$(grep -c 'names are not text$' reported)" -ge "$1" ]; }

# Two svscans over the same services, and two links to one service.
twice() {
  mkdir d
  sleeper real
  ln -s ../real d/one
  ln -s ../real d/two
  sleeper d/pair
  logger d/pair/log
  start reported d
  soon 'up' 5 is_settled real
  soon 'pair: up' 5 is_settled d/pair/log
  soon 'two links: the other name is reported' 5 holds '^svscan: two: unable to lock$' reported
  is 'two links: one service' 1 "$(count real/starts)"
  rm d/two
  # A round later it is not seen any more.
  sleeper d/later
  soon 'two links: a round later' 8 is_settled d/later
  local before reported
  before="$(process real) $(process d/pair) $(process d/pair/log)"
  reported=$(count reported)
  mkdir other
  ln -s ../real other/one
  ln -s ../d/pair other/pair
  ended 'a second svscan' 0 "svscan: one: unable to lock
svscan: pair: unable to lock
svscan: pair/log: unable to lock
svscan: one: unable to lock
svscan: pair: unable to lock
svscan: pair/log: unable to lock" other 2
  is 'the first is as it was' "$before" "$(process real) $(process d/pair) $(process d/pair/log)"
  is 'started once' '1 1 1' "$(count real/starts) $(count d/pair/starts) $(count d/pair/log/starts)"
  is 'still served' '0 0 0' "$(for name in one pair pair/log; do is_served d/$name; echo $?; done | paste -sd ' ')"
  is 'the first reports nothing of it' "$reported" "$(count reported)"
  svc -d d/pair d/pair/log d/one
  soon 'd is heard' 3 is_put_down real
  soon 'd is heard by the pair' 3 is_put_down d/pair/log
}

# Long names, and names of other bytes than letters.
names() {
  local folder long name
  folder=$(printf 'p%.0s' $(seq 200))
  long=$(printf 'n%.0s' $(seq 255))
  mkdir "$folder"
  local all=("$long" 'with two  spaces' 'größe ✓' '-x' "quote'\"\$(x)" 'back\slash')
  for name in "${all[@]}"; do
    mkdir "$folder/$name"
    cat >"$folder/$name/run" <<'END'
#!/bin/sh
echo $$ >>starts
exec sleep 1000
END
    chmod 755 "$folder/$name/run"
  done
  mkdir "$folder/$long/log"
  cat >"$folder/$long/log/run" <<END
#!/bin/sh
exec '$program' multilog ./main
END
  chmod 755 "$folder/$long/log/run"
  start reported "$room/names/$folder"
  for name in "${all[@]}"; do
    soon "up: $name" 5 is_settled "$folder/$name"
    is "line: $name" "$folder/$name: up (pid $(cat "$folder/$name/starts")) N seconds" "$(stat_line "$folder/$name")"
    svc -d "$folder/$name"
    soon "down: $name" 3 is_put_down "$folder/$name"
  done
  soon 'the long name has a logger' 4 is_up "$folder/$long/log"
  is 'nothing was reported' '' "$(cat reported reported.out)"
  # A service of any name is reported as it is spelled.
  svc -u "$folder/${all[4]}"
  soon 'up again' 4 is_settled "$folder/${all[4]}"
  kill -KILL "$svscan"
  soon 'svscan is dead' 3 is_gone "$svscan"
  rm "$folder/${all[4]}/supervise/process" "$folder/${all[4]}/supervise/place"
  start reported2 "$folder"
  soon 'reported by its name' 8 grep -q -F "svscan: ${all[4]}: process " reported2
}

# Clients that connect and say nothing, 200 of them.
cat >silent.py <<'END'
import socket, sys, time
held = []
for _ in range(200):
    stream = socket.socket(socket.AF_UNIX)
    stream.settimeout(5)
    try:
        stream.connect(sys.argv[1])
    except OSError:
        break
    held.append(stream)
open(sys.argv[2], "w").write(f"{len(held)}\n")
time.sleep(600)
END

silent() {
  sleeper d/held
  sleeper d/other
  start reported d
  soon 'up' 5 is_settled d/held
  soon 'the other one is up' 5 is_settled d/other
  python3 ../silent.py d/held/supervise/control there &
  local clients=$!
  soon 'there are clients' 20 test -s there
  lies 'clients' 100 200 "$(cat there)"
  svc -d d/other
  soon 'another service is served at once' 4 is_put_down d/other
  svc -u d/other
  soon 'and again' 4 wants u d/other
  soon 'the same one is still reported as served' 4 is_served d/held
  soon 'the same one has a line' 4 is_up d/held
  kill -KILL "$(process d/held)"
  soon 'the same one starts again after a death' 4 has_lines 2 d/held/starts
  kill "$clients"
  wait "$clients" 2>/dev/null
  soon 'once they are gone the same one is served' 10 hears_d d/held
}

# sends d until it is heard
hears_d() {
  svc -d "$1"
  until_true 2 is_put_down "$1"
}

# Connects to the socket that the first word names, makes the file `connected`, sends each piece after it, and cuts the
# connection. A piece is letters, or a letter, a star and how often it comes, or `wait:` and seconds.
cat >say.py <<'END'
import socket, sys, time
stream = socket.socket(socket.AF_UNIX)
stream.settimeout(5)
stream.connect(sys.argv[1])
open("connected", "w").close()
for piece in sys.argv[2:]:
    if piece.startswith("wait:"):
        time.sleep(float(piece[5:]))
        continue
    letter, _, times = piece.partition("*")
    try:
        stream.sendall(letter.encode() * int(times or 1))
    except OSError:
        pass
stream.close()
END

# What comes over one control connection.
connections() {
  service d/web <<'END'
trap 'echo HUP >>signals' HUP
trap 'echo ALRM >>signals' ALRM
echo $$ >>starts
while :; do sleep 0.1; done
END
  start reported d
  soon 'up' 5 is_settled d/web
  local control=d/web/supervise/control first
  first=$(process d/web)
  python3 ../say.py $control 'z*4096' d
  sleep 2
  is '4096 bytes and d: no d' "d/web: up (pid $first) N seconds" "$(stat_line d/web)"
  svc -h d/web
  soon '4096 bytes and d: the next one is served' 3 holds HUP d/web/signals
  python3 ../say.py $control 'z*4095' a
  soon '4095 bytes and a' 3 holds ALRM d/web/signals
  : >d/web/signals
  python3 ../say.py $control ha
  soon 'cut after two bytes: both are letters' 3 has_lines 2 d/web/signals
  is 'cut after two bytes' 'ALRM HUP' "$(sort d/web/signals | paste -sd ' ')"
  python3 ../say.py $control
  python3 ../say.py $control h wait:1 a
  soon 'in two pieces' 3 has_lines 4 d/web/signals
  rm connected
  python3 ../say.py $control wait:600 &
  local waits=$! begin
  soon 'a silent one: connected' 10 test -e connected
  begin=$(changed connected)
  svc -d d/web
  soon 'a silent one is dropped after 5 s' 8 is_put_down d/web
  lies 'a silent one: the next waits: tenths of a second' 30 480 $((($(changed d/web/supervise/status) - begin) / 100000))
  kill "$waits" 2>/dev/null
  wait "$waits" 2>/dev/null
  # ok takes no letters.
  python3 ../say.py d/web/supervise/ok u
  sleep 1
  is 'ok takes no letters' down "$(is_put_down d/web && echo down)"
  # More of them, one after the other, than a queue of connections holds: each is taken.
  is 'ok takes 6,000 connections' 6000 "$(timeout 300 python3 -c '
import socket, sys, time
taken = 0
for number in range(6000):
    client = socket.socket(socket.AF_UNIX)
    client.setblocking(False)
    for _ in range(2000):
        try:
            client.connect(sys.argv[1])
            taken += 1
            break
        except BlockingIOError:
            time.sleep(0.01)
    else:
        break
    client.close()
print(taken)' d/web/supervise/ok)"
  svc -u d/web
  soon 'served in the end' 3 is_up d/web
}

# A supervise that can't be made, and one that is a link to nothing.
no_supervise() {
  sleeper d/file
  sleeper d/other
  sleeper d/readonly
  sleeper d/lost
  sleeper d/link
  sleeper d/away
  mkdir kept
  echo 'no folder' >d/file/supervise
  ln -s "$PWD/nosuch/lost" d/lost/supervise
  ln -s ../../kept/link d/link/supervise
  ln -s "$PWD/kept/away" d/away/supervise
  local mounted=no
  if mount --bind d/readonly d/readonly 2>/dev/null; then
    echo "$PWD/d/readonly" >>"$room/$scenario.mounts"
    mount -o remount,bind,ro d/readonly 2>/dev/null && mounted=yes
  fi
  local begin
  begin=$(micros)
  start reported d
  soon 'another one is up' 5 is_settled d/other
  soon 'reported in the next round too' 8 are_reported 2 '^svscan: file: '
  sleep 2
  so 'a file in its place: it does not start' test ! -e d/file/starts
  is 'a file in its place: not served' 100 "$(is_served d/file; echo $?)"
  [ $mounted = yes ] && so 'read-only: it does not start' test ! -e d/readonly/supervise
  so 'a link into nowhere: it does not start' test ! -e d/lost/starts
  is 'they are reported with the cause, and no other' "svscan: file: unable to supervise: Not a directory
svscan: lost: unable to supervise: No such file or directory$([ $mounted = yes ] && echo "
svscan: readonly: unable to supervise: Read-only file system")" "$(sort -u reported)"
  lies 'once a round' 2 $((1 + ($(micros) - begin) / 5000000)) "$(grep -c '^svscan: file: ' reported)"
  so 'a link to nothing: what it names is made' test -f kept/away/lock
  is 'a link to nothing: its own, both ways' '700 700' "$(stat -c %a kept/link kept/away | paste -sd ' ')"
  is 'a link to nothing: up' '0 0' "$(for each in link away; do is_served d/$each; echo $?; done | paste -sd ' ')"
  so 'a link to nothing: it stays a link' test -L d/link/supervise
  mkdir nosuch
  soon 'a link into nowhere: no more' 8 is_up d/lost
  rm d/file/supervise
  soon 'a file in its place: gone' 8 is_up d/file
  if [ $mounted = yes ]; then
    umount d/readonly
    soon 'read-only: no more' 8 is_up d/readonly
  fi
  local reported
  reported=$(count reported)
  sleep 6
  is 'they are reported no more' "$reported" "$(count reported)"
  is 'the other one is as it was' 1 "$(count d/other/starts)"
  # Another user than root has no permission here.
  if [ "$(id -u)" = 0 ] && setpriv --reuid 65534 --clear-groups test -x "$program" 2>/dev/null; then
    sleeper e/web
    chmod 755 "$room" . e e/web
    timeout 20 setpriv --reuid 65534 --clear-groups "$program" svscan e 1 >/dev/null 2>denied </dev/null
    is 'denied' 'svscan: .svscan: unable to supervise: Permission denied
svscan: web: unable to supervise: Permission denied' "$(cat denied)"
  fi
}

# are_reported NUMBER PATTERN: so many lines at least are reported that have this
are_reported() { [ "$(grep -c -e "$2" reported)" -ge "$1" ]; }

# A service whose sockets can't be made runs, and is heard once they can be.
unheard() {
  sleeper d/web
  sleeper d/other
  mkdir -p d/web/supervise/ok/in_its_place
  local begin
  begin=$(micros)
  start reported d
  soon 'another one is served' 5 is_served d/other
  soon 'it runs' 5 is_up d/web
  soon 'reported in the next round too' 8 has_lines 2 reported
  sleep 1
  is 'it is not served' 100 "$(is_served d/web; echo $?)"
  so 'nor has it the other socket' test ! -e d/web/supervise/control
  is 'it is reported, and no other' 1 "$(sort -u reported | grep -c '^svscan: web: unable to supervise: ..*')"
  lies 'once a round' 2 $((1 + ($(micros) - begin) / 5000000)) "$(count reported)"
  local process reported
  process=$(process d/web)
  rm -r d/web/supervise/ok
  soon 'it is served' 8 is_served d/web
  is 'the same process' "$process" "$(process d/web)"
  is 'it began once' 1 "$(count d/web/starts)"
  svc -d d/web
  soon 'it obeys' 5 is_put_down d/web
  reported=$(count reported)
  sleep 6
  is 'it is reported no more' "$reported" "$(count reported)"
}

# So many rounds, and the end of all; words that are refused; a folder that is not there.
rounds() {
  sleeper d/web
  service d/web/log <<'END'
echo $$ >>starts
exec cat >>main
END
  service d/web.2 <<'END'
trap 'echo TERM >>signals; exit 0' TERM
echo $$ >>starts
while :; do sleep 0.1; done
END
  service d/exits <<'END'
echo $$ >>starts
END
  mkdir d/missing
  sleeper d/down
  : >d/down/down
  local begin
  begin=${EPOCHREALTIME/[.,]/}
  timeout -k 1 120 "$program" svscan d 2 >out 2>reported </dev/null
  is 'two rounds: status' 0 "$?"
  local took=$(((${EPOCHREALTIME/[.,]/} - begin) / 1000000))
  lies 'two rounds: seconds' 5 40 $took
  is 'two rounds: printed' '' "$(cat out)"
  is 'two rounds: TERM' TERM "$(cat d/web.2/signals)"
  local folder pid left=
  for folder in d/*/ d/web/log/; do
    [ -e "$folder/starts" ] || continue
    while read -r pid; do lives "$pid" && left="$left $pid"; done <"$folder/starts"
  done
  is 'two rounds: no child is left' '' "$left"
  is 'two rounds: no socket is left' 0 "$(sockets d)"
  is 'two rounds: records' '0 0 0 0 0 0' \
    "$(for folder in d/web d/web/log d/web.2 d/exits d/missing d/down; do process $folder; done | paste -sd ' ')"
  is 'two rounds: all are gone' '1 5' \
    "$(for folder in d/web d/web/log d/web.2 d/exits d/missing d/down; do phase $folder; done | sort -u)"
  is 'two rounds: started once' '1 1 1' "$(count d/web/starts) $(count d/web/log/starts) $(count d/web.2/starts)"
  is 'two rounds: down was not started' 0 "$(count d/down/starts)"
  is 'two rounds: traces are kept' 6 "$(find d -name trace -size +0 | wc -l)"
  so 'two rounds: the trace has x' trace_has d/web 'byte x: took record:'
  mkdir none
  ended 'an empty folder' 0 '' none 1
  local words usage
  usage=$'dtools: usage\ndtools svscan [DIR [ROUNDS]]; DIR is the working directory if it is not given'
  for words in 'd 0' 'd 00' 'd 01' 'd -1' 'd +1' 'd x' 'd 4294967296' 'a b c' 'd 1 1'; do
    # shellcheck disable=SC2086
    ended "usage: $words" 100 "$usage" $words
  done
  ended 'usage: an empty number' 100 "$usage" d ''
  ended 'no such folder' 111 "svscan: unable to read $room/nonexistent: No such file or directory" "$room/nonexistent" 1
  ended 'no folder' 111 'svscan: unable to read d/web/run: Not a directory' d/web/run 1
  cd d || return
  start ../reported.inside
  cd ..
  soon 'the folder that it is in: up' 5 has_lines 2 d/web/starts
}

# A hundred services end, each with bytes under way until the last moment: the trace that is left of each ends in the entry
# after which it was gone.
last_entries() {
  mkdir d real
  local name
  for name in $(seq 100 199); do
    sleeper real/$name
    ln -s ../real/$name d/$name
  done
  start reported d
  soon 'all are up' 20 all_are is_settled real/*
  rm d/*
  python3 -c 'import os, socket, time
while not os.path.exists("stop"):
    for name in os.listdir("real"):
        try:
            client = socket.socket(socket.AF_UNIX)
            client.connect("real/" + name + "/supervise/control")
            client.send(b"ccc")
            client.close()
        except OSError:
            pass
        time.sleep(0.001)' &
  local sender=$!
  sleep 0.5
  svc -dx real/*
  soon 'all have ended' 20 all_are not_served real/*
  : >stop
  wait "$sender"
  is 'each trace ends where the service was gone' 100 "$(for name in real/*; do ends_gone "$name" && echo yes; done | wc -l)"
  is 'nothing is reported but bytes that were not taken' '' "$(grep -vE '^svscan: 1..: [0-9]+ bytes were not taken$' reported)"
}

# all_are TEST FOLDER..: the test holds of each
all_are() {
  local test=$1 each
  shift
  for each in "$@"; do "$test" "$each" || return 1; done
}

not_served() { not is_served "$1"; }

# Threads, descriptors and sockets are given back when services and pairs end, 100 of them.
given_back() {
  sleeper d/stays
  start reported d
  soon 'the first one is up' 10 is_settled d/stays
  local before name
  sleep 1
  # What a round opens for a moment does not count.
  until before=$(numbers "$svscan"); sleep 0.3; has "$before" numbers "$svscan" && sleep 0.3 && has "$before" numbers "$svscan"; do :; done
  mkdir real
  for name in $(seq 10 49); do sleeper real/$name; done
  for name in $(seq 50 79); do
    sleeper real/$name
    sleeper real/$name/log
  done
  for name in real/*; do ln -s "../$name" d/; done
  soon 'all are up' 30 all_are is_settled real/* real/*/log
  lies 'threads of 100 more' 200 300 $(($(threads "$svscan") - ${before% *}))
  rm d/[0-9]*
  svc -dx real/* real/*/log
  soon 'all have ended' 30 all_are not_served real/* real/*/log
  soon 'their threads and descriptors are given back' 12 has "$before" numbers "$svscan"
  is 'their sockets are gone' 0 "$(sockets real)"
  is 'nothing is reported' '' "$(cat reported)"
}

threads() { find "/proc/$1/task" -mindepth 1 -maxdepth 1 | wc -l; }
numbers() { echo "$(threads "$1") $(descriptors "$1")"; }
# has TEXT COMMAND..: the command prints this
has() {
  local text=$1
  shift
  [ "$("$@")" = "$text" ]
}

# Whether the last entry of a service's trace is the one after which it was gone.
ends_gone() {
  [[ $(timeout 10 "$program" trace "$1/supervise/trace" | tail -n 2 | head -n 1) == *' -> gone' ]]
}

# What is posted to a service that ends without it is reported, once: here d and x are taken after the second of its start,
# and the rest never. The same holds of a trace that can't be written.
untaken() {
  sleeper d/short
  : >d/short/down
  sleeper d/other
  start reported d
  soon 'both are served' 10 all_are is_served d/short d/other
  # It is gone at once after x, since it is down.
  python3 ../say.py d/short/supervise/control xccc
  soon 'bytes are reported' 15 holds '^svscan: short: 3 bytes were not taken$' reported
  soon 'it begins anew' 10 is_served d/short
  mkdir d/other/supervise/trace.new
  svc -dx d/other
  soon 'a trace is reported' 15 holds '^svscan: other: unable to write the trace$' reported
  soon 'it begins anew' 10 is_served d/other
  sleep 6
  is 'each is reported once' 2 "$(count reported)"
}

# svscan is served itself: its own status, a round on demand, bytes that ask for nothing.
itself() {
  sleeper d/web
  # It is reported each round.
  sleeper d/file
  echo 'no folder' >d/file/supervise
  start reported d
  soon 'up' 5 is_settled d/web
  is 'svok' 0 "$(is_served d/.svscan; echo $?)"
  is 'svstat' "d/.svscan: up (pid $svscan) N seconds" "$(stat_line d/.svscan)"
  is 'modes' '700 600 600 600 600' "$(cd d/.svscan/supervise && stat -c %a . control ok status lock | paste -sd ' ')"
  soon 'a second round' 8 has_lines 2 reported
  local begin
  begin=$(changed reported)
  python3 ../say.py d/.svscan/supervise/control 'udopchit12k' wait:1 'z*500' wait:1 'b*4096'
  # On a busy computer five seconds may have gone by, and with them a round.
  local rounds
  rounds=$(count reported)
  lies 'bytes that ask for nothing: rounds' 2 $((2 + ($(micros) - begin) / 5000000)) "$rounds"
  so 'bytes that ask for nothing: it goes on' lives "$svscan"
  sleeper d/new
  svc -a d/.svscan
  soon 'a: a round' 1 has_lines $((rounds + 1)) reported
  soon 'a: what is new is served' 1 is_served d/new
  # Two rounds without being asked for take at least five seconds. A busy machine gets three tries.
  local took=50
  for _ in 1 2 3; do
    [ "$took" -ge 50 ] || break
    rounds=$(count reported)
    begin=$(micros)
    python3 ../say.py d/.svscan/supervise/control aa
    until_true 2 has_lines $((rounds + 2)) reported
    took=$((($(changed reported) - begin) / 100000))
  done
  so 'a: again' has_lines $((rounds + 2)) reported
  lies 'a: tenths of a second' 0 49 "$took"
  local web
  web=$(process d/web)
  python3 ../say.py d/.svscan/supervise/control xq
  soon 'x before q: svscan ends' 5 is_gone "$svscan"
  so 'x before q: the service is gone' not lives "$web"
  is 'its record says so' '0 1 5' "$(process d/.svscan) $(phase d/.svscan)"
  is 'no socket is left' 0 "$(sockets d)"
  start reported2 d
  soon 'up again' 5 is_settled d/web
  web=$(process d/web)
  python3 ../say.py d/.svscan/supervise/control qx
  soon 'q before x: svscan ends' 5 is_gone "$svscan"
  so 'q before x: the service runs on' lives "$web"
}

has_trace() { [ -s "$1/supervise/trace" ]; }

# The names, times, sizes and modes of all that is in a folder.
listing() { find "$1" -printf '%p %i %T@ %C@ %s %m %y\n' | sort; }

# A second svscan over a folder is refused, and changes nothing there.
refused() {
  sleeper d/web
  sleeper d/pair
  logger d/pair/log
  start reported d
  soon 'up' 5 all_are is_settled d/web d/pair d/pair/log
  soon 'their traces are kept' 10 all_are has_trace d/web d/pair d/pair/log
  sleep 6
  listing d >before
  ended 'a second svscan' 111 'svscan: unable to lock d' d
  ended 'a second svscan, of one round' 111 'svscan: unable to lock d' d 1
  cd d || return
  timeout -k 1 30 "$program" svscan >../inside.out 2>../inside.reported </dev/null
  is 'in the folder itself: status' 111 "$?"
  cd ..
  is 'in the folder itself: reported' 'svscan: unable to lock .' "$(cat inside.reported)"
  listing d >after
  is 'nothing is changed' '' "$(diff before after)"
  is 'the first reports nothing of it' '' "$(cat reported)"
  kill -KILL "$svscan"
  soon 'svscan is dead' 3 is_gone "$svscan"
  start reported2 d
  soon 'the next one is served' 5 is_served d/.svscan
  # If its folder can't be made, it runs without.
  sleeper e/web
  echo 'no folder' >e/.svscan
  start reported3 e
  soon 'without its own folder: up' 5 is_settled e/web
  sleep 6
  is 'without its own folder: reported once' 'svscan: .svscan: unable to supervise: Not a directory' "$(cat reported3)"
}

# It says its last words after TERM, for 0.3 seconds.
speaker() {
  service "$1" <<'END'
trap 'sleep 0.3; echo last words; exit' TERM
echo $$ >>starts
while :; do sleep 0.05; done
END
}

# What services say while all end is logged: when svscan is asked to end, and when its rounds are over.
last_words() {
  speaker d/web
  logger d/web/log
  # A descendant keeps its output.
  service d/keeps <<'END'
sleep 900 &
trap 'sleep 0.3; echo last words; exit' TERM
echo $$ >>starts
while :; do sleep 0.05; done
END
  logger d/keeps/log
  speaker d/alone
  # Its logger ends by itself, and not by TERM, though that takes a second.
  speaker d/slow
  service d/slow/log <<'END'
echo $$ >>starts
trap 'echo TERM >>signals; exit' TERM
while read -r line; do echo "$line" >>lines; done
sleep 1
echo done >>lines
END
  # One that does not end by itself gets TERM after five seconds.
  speaker d/never
  service d/never/log <<'END'
echo $$ >>starts
trap 'echo TERM >>signals; exit' TERM
while read -r line; do echo "$line" >>lines; done
while :; do sleep 0.1; done
END
  local all=(d/web d/web/log d/keeps d/keeps/log d/alone d/slow d/slow/log d/never d/never/log) name begin
  set -m
  "$program" svscan d </dev/null >out 2>reported &
  local job=$!
  set +m
  echo "$job" >>"$room/$scenario.groups"
  soon 'up' 8 all_are is_settled "${all[@]}"
  svc -dx d/.svscan
  begin=$EPOCHREALTIME
  wait "$job"
  is 'x: status' 0 "$?"
  lies 'x: tenths of a second' 50 400 $(((${EPOCHREALTIME/[.,]/} - ${begin/[.,]/}) / 100000))
  for name in web keeps; do
    is "x: $name" 'last words' "$(tail -n 1 d/$name/log/main/current)"
  done
  is 'x: slow' 'last words done ' "$(paste -sd ' ' d/slow/log/lines) $(cat d/slow/log/signals 2>/dev/null)"
  is 'x: never' 'last words TERM' "$(paste -sd ' ' d/never/log/lines) $(cat d/never/log/signals)"
  is 'x: each was started once' "$(printf '1 %.0s' "${all[@]}")" "$(for name in "${all[@]}"; do printf '%s ' "$(count "$name/starts")"; done)"
  is 'x: no process is left' '' "$(for name in "${all[@]}"; do living "$name"; done)"
  is 'x: what still ran is reported' 'never/log' "$(sed -n 's/^svscan: \(.*\): process [0-9]* still runs$/\1/p' reported | sort -u | paste -sd ' ')"
  is 'x: no socket is left' 0 "$(sockets d)"
  rm -r d/never d/slow d/keeps
  timeout -k 1 120 "$program" svscan d 2 >out 2>reported2 </dev/null
  is 'two rounds: status' 0 "$?"
  is 'two rounds: last words' 2 "$(grep -c '^last words$' d/web/log/main/current)"
  is 'two rounds: reported' '' "$(cat reported2)"
}

# svscan is asked to end alone, and the next one goes on: nothing is lost, and no process is another.
upgraded() {
  service d/flow <<'END'
echo $$ >>starts
i=0
while [ $i -lt 60000 ]; do
  i=$((i + 1))
  echo "line $((100000000 + i)) of the stream"
  [ $((i % 100)) = 0 ] && sleep 0.01
done
exec sleep 1000
END
  logger d/flow/log
  sleeper d/web
  start_session reported d
  soon 'up' 8 all_are is_settled d/flow d/flow/log d/web
  local kept begin
  kept="$(process d/flow) $(process d/web)"
  for _ in 1 2 3 4 5; do
    sleep "0.$((RANDOM % 9))"
    svc -q d/.svscan
    soon 'q: svscan ends' 8 is_gone "$svscan"
    so 'q: the service runs on' live "$(process d/flow)" "$(process d/web)"
    start_session reported d
    soon 'the next one' 8 is_served d/flow/log
  done
  soon 'its last line is logged' 40 holds 'line 100060000 of the stream' d/flow/log/main/current
  seq -f 'line %.0f of the stream' 100000001 100060000 >wanted
  is 'no line is lost, doubled or moved' same "$(cat d/flow/log/main/* 2>/dev/null | grep -a '^line' | cmp wanted - 2>&1 && echo same)"
  is 'the same processes' "$kept" "$(process d/flow) $(process d/web)"
  is 'nothing was reported' '' "$(cat reported)"
}

# a process that writes nothing for half a second
wrote() { sed -n 's/^wchar: //p' "/proc/$(process "$1")/io"; }
rests() { local before; before=$(wrote "$1"); [ -n "$before" ] && sleep 0.5 && [ "$(wrote "$1")" = "$before" ]; }

# A logger that doesn't read as svscan leaves: what it can't have is reported, to the byte.
unread() {
  local name
  for name in paused down; do
    service d/$name <<'END'
echo $$ >>starts
i=0
while [ $i -lt 8000 ]; do i=$((i + 1)); echo "line $((100000000 + i)) of the stream"; done
: >done
exec sleep 1000
END
    service d/$name/log <<'END'
echo $$ >>starts
exec cat >>main
END
    : >d/$name/down
  done
  start_session reported d
  soon 'up' 8 all_are is_settled d/paused/log d/down/log
  svc -p d/paused/log
  svc -d d/down/log
  soon 'down' 5 is_put_down d/down/log
  svc -u d/paused d/down
  soon 'both have processes' 5 all_are is_settled d/paused d/down
  # The outputs are full.
  sleep 2
  soon 'they write no more' 10 all_are rests d/paused d/down
  so 'they wait' test ! -e d/paused/done -a ! -e d/down/done
  local cat
  cat=$(process d/paused/log)
  svc -q d/.svscan
  soon 'q: svscan ends' 12 is_gone "$svscan"
  kill -CONT "$cat"
  soon 'the logger reads on, and ends' 5 not lives "$cat"
  start_session reported2 d
  soon 'the next one' 8 all_are is_served d/paused/log d/down/log
  svc -u d/down/log
  for name in paused down; do
    soon "$name: all is written" 10 test -e d/$name/done
    soon "$name: its last line is logged" 10 holds 'line 100008000 of the stream' d/$name/log/main
    is "$name: what is not logged is reported" $((8000 * 29)) \
      $(($(stat -c %s d/$name/log/main) + $(sed -n "s/^svscan: $name: \\([0-9]*\\) bytes were not logged\$/\\1/p" reported) + 0))
  done
  is 'each is reported once' 2 "$(count reported)"
}

# svscan-run ends everything in order: the last words of a service are in its log, and no process is left, not even of one
# that comes back each second.
ordered() {
  service d/web <<'END'
exec 2>&1
trap 'sleep 0.3; echo last words; exit' TERM
echo $$ >pid
while :; do sleep 0.05; done
END
  logger d/web/log
  service d/short <<<'exit 0'
  sleeper 'd/two words'
  set -m
  DTOOLS=$program "$scripts/svscan-run" d </dev/null >out 2>reported &
  local wrapper=$!
  set +m
  echo "$wrapper" >>"$room/$scenario.groups"
  soon 'all are up' 15 all_are is_settled d/web d/web/log 'd/two words'
  ps -o pid= --ppid "$wrapper" | tr -d ' ' >>"$room/$scenario.groups"
  local processes
  processes=$(process d/web; process d/web/log; process 'd/two words')
  kill -TERM "$wrapper"
  sleep 0.05
  kill -TERM "$wrapper"
  local begin=$EPOCHREALTIME
  wait "$wrapper"
  is 'status' 0 "$?"
  lies 'tenths of a second' 0 400 $(((${EPOCHREALTIME/[.,]/} - ${begin/[.,]/}) / 100000))
  is 'last words' 'last words' "$(tail -n 1 d/web/log/main/current)"
  is 'no process is left' '' "$(for number in $processes; do lives "$number" && echo "$number"; done)"
  is 'no service is served' 100 "$(is_served d/web; echo $?)"
  is 'reported' '' "$(cat reported)"
  start reported2 d
  soon 'the next svscan begins each' 10 all_are is_settled d/web d/web/log 'd/two words'
  DTOOLS=$program "$scripts/svscan-run" none/at/all 2>none &
  local bad=$!
  soon 'a bad folder: reported' 5 holds '^svscan: unable to read none/at/all: Not a directory$' none
  sleep 1
  kill -TERM "$bad" 2>/dev/null
  wait "$bad"
  is 'a bad folder: status' 111 "$?"
  is 'a folder that another svscan has' '111 svscan: unable to lock d' "$(DTOOLS=$program "$scripts/svscan-run" d 2>locked; echo "$? $(cat locked)")"
}

# As the first process of a space of its own svscan-run leaves no zombie, and ends with all others.
first_process() {
  unshare --pid --fork --mount-proc --kill-child true 2>/dev/null || return
  service d/orphans <<'END'
(sleep 0.3 & sleep 0.1 &)
exec sleep 1000
END
  set -m
  DTOOLS=$program unshare --pid --fork --mount-proc --kill-child "$scripts/svscan-run" d </dev/null >out 2>reported &
  local outer=$! first
  set +m
  echo "$outer" >>"$room/$scenario.groups"
  soon 'served' 10 is_served d/orphans
  sleep 1.5
  first=$(ps -o pid= --ppid "$outer" | tr -d ' ')
  soon 'no zombie' 2 no_zombie "$first"
  kill -TERM "$first"
  soon 'it ends' 5 not lives "$first"
  wait "$outer"
  is 'status' 0 "$?"
  is 'reported' '' "$(cat reported)"
}

# no child of a process has ended and is not waited for
no_zombie() { ! ps -o stat= --ppid "$1" | grep -q Z; }

# Two services over five rounds, each asked by the programs in turn, until the trace says how one of them ended.
two_services() {
  sleeper S
  sleeper R
  mkdir d
  ln -s ../S ../R d
  "$program" svscan d 5 >out 2>reported </dev/null &
  local svscan=$!
  soon 'svok S' 10 is_served S
  soon 'svok R' 10 is_served R
  soon 'svstat S' 10 begins 'S: up (pid ' S
  soon 'svstat R' 10 begins 'R: up (pid ' R
  svc -p R
  soon 'R is paused' 10 ends ', paused' R
  so 'S is not' not ends ', paused' S
  svc -dx S R
  wait "$svscan"
  is 'status' 0 "$?"
  is 'reported' '' "$(cat reported)"
  is 'svok after the end' 100 "$(is_served S; echo $?)"
  is 'svstat after the end' 'S: supervise not running' "$(timeout 10 "$program" svstat S)"
  is 'the trace breaks where S was gone' 'break ' \
    "$(timeout 10 "$program" trace S/supervise/trace --break phase:gone | grep -o '^break ')"
}

# What a service is given: its folder, its descriptors, its environment, its signals.
child() {
  local each
  for each in d/s{1..20} d/pair d/pair/log; do
    service "$each" <<'END'
streams=$(readlink /proc/$$/fd/0 /proc/$$/fd/1 /proc/$$/fd/2)
echo "$streams" >streams
ls /proc/self/fd >fds
pwd -P >folder
tr '\0' '\n' </proc/$$/environ >environment
while read -r key mask; do
  case $key in SigBlk: | SigIgn:) echo $((0x$mask & 0x7fffffff)) >>masks;; esac
done </proc/self/status
: >ready
exec sleep 1000
END
  done
  under=(env -i A=1 'B=two words' PATH="$PATH" PWD="$PWD")
  start reported d
  under=()
  soon 'all are ready' 8 are_ready 22
  # ls has one more open, the folder that it lists.
  is 'descriptors' '22 0 22 1 22 2 22 3' "$(cat d/*/fds d/pair/log/fds | sort | uniq -c | xargs)"
  is 'its folder' "$PWD/d/s1" "$(cat d/s1/folder)"
  is 'its folder: a logger' "$PWD/d/pair/log" "$(cat d/pair/log/folder)"
  is 'its environment' "A=1 B=two words PATH=$PATH PWD=$PWD" "$(sort d/s1/environment | paste -sd ' ')"
  is 'its signals: none is blocked, none is passed over' '0 0' "$(paste -sd ' ' d/s1/masks)"
  is 'its streams' "/dev/null $PWD/reported.out $PWD/reported" "$(paste -sd ' ' d/s1/streams)"
  is 'its streams: a pair' "/dev/null $PWD/d/pair/supervise/out $PWD/reported" "$(sed 's/:.*//' d/pair/streams | paste -sd ' ')"
  is 'its streams: a logger' "pipe $PWD/reported.out $PWD/reported" "$(sed 's/:.*//' d/pair/log/streams | paste -sd ' ')"
  is 'nothing was reported' '' "$(cat reported reported.out)"
}

are_ready() {
  [ "$(find d -name ready | wc -l)" = "$1" ]
}

# Few descriptors: svscan goes on with what it has, and begins no service for whose sockets none would be left.
shortage() {
  local each
  sleeper d/s1
  under=(bash -c 'ulimit -n 60; exec "$@"' bash)
  start reported d
  under=()
  soon 'the first is up' 10 is_settled d/s1
  for each in $(seq 2 20); do sleeper "d/s$each"; done
  soon 'some are reported' 15 holds ': unable to supervise: Too many open files$' reported
  sleep 5
  so 'svscan lives' lives "$svscan"
  local up=()
  for each in d/s{1..20}; do is_served "$each" && is_up "$each" && up+=("$each"); done
  lies 'some are up, and some are not' 1 19 ${#up[@]}
  is 'those that are not served are reported' '' "$(for each in d/s{1..20}; do
    is_served "$each" || holds "^svscan: ${each##*/}: unable to supervise: Too many open files$" reported || echo "$each"
  done)"
  lies 'no more are begun than there are descriptors for' 1 12 "$(find d -name starts | wc -l)"
  local before after
  before=$(ticks "$svscan")
  sleep 5
  after=$(ticks "$svscan")
  lies 'svscan does not spin: ticks in 5 s' 0 100 $((after - before))
  so 'svscan lives on' lives "$svscan"
  so 'the service too' lives "$(process "${up[0]:-none}")"
}

# Ten services and three pairs want 24 + 10 * 4 + 3 * 12 descriptors: with one less that is reported, at once and once, and with
# as many all are up.
descriptors_reported() {
  local each
  for each in d e; do
    for name in s{0..9} p{0..2}; do sleeper "$each/$name"; done
    for name in p{0..2}; do logger "$each/$name/log"; done
    : >"$each/file"
    sleeper "$each/.hidden"
  done
  under=(bash -c 'ulimit -n 99; exec "$@"' bash)
  start reported d
  under=(bash -c 'ulimit -n 100; exec "$@"' bash)
  start reported2 e
  under=()
  soon 'as many: up' 8 all_are is_settled e/s{0..9} e/p{0..2} e/p{0..2}/log
  soon 'one less: reported' 3 holds '^svscan: 100 descriptors are needed, 99 are allowed$' reported
  is 'one less: first of all' 'svscan: 100 descriptors are needed, 99 are allowed' "$(head -n 1 reported)"
  sleep 6
  is 'one less: once' 1 "$(grep -c 'descriptors are needed' reported)"
  is 'as many: nothing is reported' '' "$(cat reported2)"
}

# A hundred services begin in one round. They get their sockets in batches, not after all have begun, and svscan has just the
# descriptors that it counts.
batches() {
  local each
  for each in $(seq 100 199); do sleeper "d/s$each"; done
  under=(bash -c 'ulimit -n 424; exec "$@"' bash)
  start reported d
  under=()
  soon 'all are up, and svc reaches them' 10 all_are is_settled d/s{100..199}
  is 'nothing is reported' '' "$(cat reported)"
  lies 'begun after the first socket' 50 100 "$(find d -name starts -newer "$(ls -tr d/*/supervise/ok | head -n 1)" | wc -l)"
}

# A folder that does not change is not listed again, and what comes to it is seen.
unchanged() {
  command -v strace >/dev/null || return
  sleeper d/web
  sleeper real
  ln -s ../there d/link
  start reported d
  soon 'up' 5 is_settled d/web
  sleep 12
  timeout 11 strace -f -qq -e trace=getdents64,getdents -o listed -p "$svscan"
  is 'it is not listed' 0 "$(grep -c getdents listed)"
  mv real there
  soon 'a link that leads somewhere now' 8 is_up d/link
  sleeper d/other
  soon 'a new one' 8 is_up d/other
  sleep 8
  sleeper d/third
  soon 'one after a rest' 8 is_up d/third
}

# Somebody removes the folder supervise of services that run, as rsync --delete does. Each one that ends is started again, and
# its process is in its place again. The next svscan serves it, and starts no second copy.
bared() {
  local name names=(plain pair) before
  mkdir d
  for name in "${names[@]}"; do sleeper "d/$name"; done
  logger d/pair/log
  start_session reported d
  soon 'up' 5 all_are is_settled d/plain d/pair d/pair/log
  for name in "${names[@]}"; do
    before=$(process "d/$name")
    rm -r "d/$name/supervise"
    kill -KILL "$before"
    soon "$name: starts again" 8 has_lines 2 "d/$name/starts"
    soon "$name: its place names the process" 5 holds "^$(tail -n 1 "d/$name/starts") " "d/$name/supervise/place"
    is "$name: a folder for its owner alone" 700 "$(stat -c %a "d/$name/supervise")"
    is "$name: its record too" "$(tail -n 1 "d/$name/starts")" "$(process "d/$name")"
  done
  svc -q d/.svscan
  soon 'svscan has ended' 10 is_gone "$svscan"
  start_session reported2 d
  soon 'the next one serves them' 10 all_are is_settled d/plain d/pair d/pair/log
  for name in "${names[@]}"; do is "$name: no second copy" 2 "$(count "d/$name/starts")"; done
}

# A service is known by its name. If the name leads to another folder, the service goes on in the old one until it is ended there.
switched() {
  local before
  mkdir d
  sleeper old
  sleeper new
  sleeper d/replaced
  ln -s ../old d/web
  start reported d
  soon 'up' 5 all_are is_settled d/web d/replaced
  before=$(process old)
  ln -sfn ../new d/web
  mv d/replaced kept
  sleeper d/replaced
  sleeper d/later
  soon 'a round later' 8 is_up d/later
  is 'the old one goes on' "$before" "$(process old)"
  so 'its process too' lives "$before"
  is 'nobody serves the new folders' '100 100' "$(is_served new; echo $?) $(is_served d/replaced; echo $?)"
  svc -dx old kept
  soon 'the new folders have the services now' 8 all_are is_up new d/replaced
  is 'each folder had one start' '1 1 1 1' "$(count old/starts) $(count new/starts) $(count kept/starts) $(count d/replaced/starts)"
  is 'nothing is said' '' "$(cat reported)"
}

# What is in the folder when a service begins anew counts, though rounds passed in which it was not looked at.
begins_anew() {
  mkdir d
  sleeper d/web
  sleeper d/pair
  logger d/pair/log
  start reported d
  soon 'up' 5 is_settled d/web
  soon 'the pair is up' 5 is_settled d/pair/log
  sleep 6
  local first
  first=$(process d/pair)
  : >d/web/down
  : >d/pair/log/down
  svc -dx d/web d/pair/log
  soon 'ended' 3 not is_served d/web
  soon 'it begins again' 8 is_served d/web
  soon 'its logger begins again' 8 is_served d/pair/log
  sleep 2
  is 'down since then: not started' '1 1' "$(count d/web/starts) $(count d/pair/log/starts)"
  is 'the service of the pair goes on' "$first" "$(process d/pair)"
  rm d/web/down
  svc -x d/web
  soon 'up since then: started' 8 has_lines 2 d/web/starts
  # Its folder is a file by the time it ends.
  mv d/web d/.web
  echo 'a file' >d/web
  svc -dx d/.web
  soon 'a file in its place: ended' 3 not is_served d/.web
  sleep 6
  is 'a file in its place: it does not start again' 2 "$(count d/.web/starts)"
  is 'nothing was reported' '' "$(cat reported)"
}

ticks() {
  sed 's/.*) //' "/proc/$1/stat" | { read -r -a field; echo $((field[11] + field[12])); }
}

# More names than there are places for. All begin down, so that nothing is started.
many() {
  local limit
  limit=$(ulimit -Hn)
  [ "$limit" = unlimited ] || [ "$limit" -ge 12000 ] || return
  mkdir d
  (cd d && seq -f 's%04.0f' 1001 | xargs mkdir && seq -f 's%04.0f/down' 1001 | xargs touch)
  under=(bash -c 'ulimit -n $(ulimit -Hn); exec "$@"' bash)
  "${under[@]}" timeout -k 1 300 "$program" svscan d 1 >out 2>reported </dev/null
  is 'status' 0 "$?"
  under=()
  is 'the last one is refused' 'svscan: s1001: TooMany' "$(cat reported)"
  is 'sockets' 0 "$(sockets d)"
  is 'records' 1001 "$(find d -name status -size 20c | wc -l)"
}

# pairs FIRST LAST: pairs that rest, of services that sleep
pairs() {
  local number
  for ((number = $1; number <= $2; number += 1)); do
    mkdir -p "made/s$number/log/main"
    sleeper made/.run
    mv made/.run/run "made/s$number/run"
    rmdir made/.run
    logger "made/.run"
    mv made/.run/run "made/s$number/log/run"
    rmdir made/.run
    mv "made/s$number" d
  done
}

# pairs_run COUNT: so many services and loggers run, and were reported so
pairs_run() { [ "$(find d -path '*/starts' -size +0 | wc -l)" = "$(($1 * 2))" ]; }

# The proportional share of memory of a process, in KB.
memory() { awk '/^Pss:/ { print $2 }' "/proc/$1/smaps_rollup"; }

# What a pair that rests takes of svscan's memory: stacks, traces and mailboxes, and no buffer.
resting() {
  local before after
  mkdir d made
  pairs 1 10
  start reported d
  soon 'ten pairs run' 20 pairs_run 10
  sleep 2
  before=$(memory "$svscan")
  pairs 11 60
  svc -a d/.svscan
  soon 'fifty more run' 30 pairs_run 60
  sleep 2
  after=$(memory "$svscan")
  lies 'KB a pair' 40 132 "$(((after - before) / 50))"
}

# fill and room_again: the folder of services has no room for another byte, and has it again. On a small file system of its
# own, if one may be mounted; else svscan may write no file at all. SIGXFSZ is ignored by who starts svscan.
small_folder() {
  mkdir d
  if mount -t tmpfs -o size=400k none d 2>/dev/null; then
    echo "$PWD/d" >>"$room/$scenario.mounts"
    full=mount
  else
    full=limit
  fi
  echo "svscan: $scenario: full by $full"
}
fill() {
  if [ "$full" = mount ]; then
    dd if=/dev/zero of=d/.fill bs=1k 2>/dev/null
    until ! echo x >>d/.fill2; do :; done 2>/dev/null
  else
    prlimit --pid "$svscan" --fsize=0:
  fi
}
room_again() {
  if [ "$full" = mount ]; then rm -f d/.fill d/.fill2; else prlimit --pid "$svscan" --fsize=unlimited:; fi
}
# counted FOLDER NAME: a service that notes each start outside of the folder of services
counted() {
  service "$1" <<END
echo \$\$ >>'$PWD/$2.starts'
exec sleep 1000
END
}
run_of() { while read -r number; do lives "$number" && echo "$number"; done <"$1.starts"; }

# On a full disk a service that dies starts again, its record says so, and the next svscan takes up the same process. What
# could not be written is said once, and once that it is written again.
full_disk() {
  local full
  small_folder
  counted d/web web
  trap '' XFSZ
  start_session reported1 d
  trap - XFSZ
  soon 'up' 5 is_settled d/web
  local web
  web=$(process d/web)
  fill
  kill -KILL "$web"
  soon 'it starts again' 8 has_lines 2 web.starts
  web=$(tail -n 1 web.starts)
  soon 'the record says so' 5 begins "d/web: up (pid $web)" d/web
  soon 'it is said' 5 holds '^svscan: web: unable to write [a-z]*: \(No space left on device\|unknown cause\)$' reported1
  is 'once' 1 "$(grep -c 'unable to write' reported1)"
  room_again
  soon 'it is whole again' 5 holds '^svscan: web: all records are written again$' reported1
  so 'its process is recorded' holds "^$web " d/web/supervise/process
  svc -q d/.svscan
  soon 'q ends svscan' 8 is_gone "$svscan"
  start_session reported2 d
  soon 'the same process' 8 begins "d/web: up (pid $web)" d/web
  sleep 2
  is 'one process' "$web" "$(run_of web)"
  is 'nothing else was reported' '' "$(grep -v 'unable to write\|all records' reported1 reported2)"
}

# What is put down on a full disk stays down: for svstat, and for the next svscan.
full_put_down() {
  local full
  small_folder
  counted d/web web
  trap '' XFSZ
  start_session reported1 d
  soon 'up' 5 is_settled d/web
  local web
  web=$(process d/web)
  fill
  svc -d d/web
  soon 'd ends it' 5 not lives "$web"
  soon 'the record says down' 5 begins 'd/web: down' d/web
  kill -KILL "$svscan"
  soon 'svscan is dead' 3 is_gone "$svscan"
  [ "$full" = mount ] || room_again
  start_session reported2 d
  trap - XFSZ
  soon 'the next one serves it' 8 is_served d/web
  sleep 2
  is 'it was not started' "1 " "$(count web.starts) $(run_of web)"
  room_again
  svc -u d/web
  soon 'u starts it' 5 has_lines 2 web.starts
}

# If the place of a service can't be written no process begins: it is said, and it begins as soon as it can be.
placeless() {
  sleeper d/web
  mkdir -p d/web/supervise/place
  start_session reported d
  soon 'it is said' 8 holds '^svscan: web: unable to write place: ' reported
  sleep 2
  is 'no process' 0 "$(count d/web/starts)"
  rmdir d/web/supervise/place
  soon 'it starts' 5 is_settled d/web
  soon 'it is whole again' 5 holds '^svscan: web: all records are written again$' reported
  is 'once' 1 "$(count d/web/starts)"
  so 'its place names it' holds "^$(process d/web) " d/web/supervise/place
}

# Locks that are held for a moment as svscan begins: its own, that of a pair's service, and that of another service.
held_locks() {
  service d/flow <<'END'
echo $$ >>starts
while echo line; do sleep 0.05; done
END
  logger d/flow/log
  sleeper d/web
  start_session reported1 d
  soon 'up' 8 all_are is_settled d/flow d/flow/log d/web
  local lock before still
  # svscan's patience lasts a second from its start. The locks are let go in the midst of it, and if the machine stands still
  # meanwhile all is done anew.
  for _ in 1 2 3 4 5 6; do
    kill -KILL "$svscan"
    soon 'svscan is dead' 3 is_gone "$svscan"
    rm -f begin held.*
    : >reported2
    for lock in d/.svscan d/flow d/web; do
      flock -w 5 "$lock/supervise/lock" sh -c ': >"$1"; while ! [ -e begin ]; do sleep 0.02; done; sleep 0.4' sh "held.${lock##*/}" &
    done
    soon 'they are held' 5 test -e held..svscan -a -e held.flow -a -e held.web
    stood_still stood &
    still=$!
    : >begin
    start_session reported2 d
    soon 'the next one serves all' 15 all_are is_served d/flow d/flow/log d/web
    kill -TERM "$still" 2>/dev/null
    wait "$still"
    [ "$(tail -n 1 stood 2>/dev/null || echo 0)" -ge 300 ] || break
  done
  before=$(wc -c <d/flow/log/main/current)
  sleep 1
  lies 'the log has grown' 10 1000000 "$(($(wc -c <d/flow/log/main/current) - before))"
  is 'nothing was reported' '' "$(cat reported1 reported2)"
  is 'no second copies' '1 1' "$(count d/flow/starts) $(count d/web/starts)"
}

# A pair's lock that stays held: the pair is said to be locked each round, and its output is never another one.
held_pair() {
  sleeper d/pair
  logger d/pair/log
  mkdir -p d/pair/supervise
  flock d/pair/supervise/lock sh -c ': >held; sleep 7; until [ -e let_go ]; do sleep 0.05; done' &
  local holder=$!
  soon 'it is held' 5 test -e held
  start reported d
  soon 'it is said' 8 holds '^svscan: pair: unable to lock$' reported
  is 'nothing began' 0 "$(count d/pair/starts)"
  : >let_go
  wait "$holder"
  soon 'then it begins' 12 is_settled d/pair
  is 'its output is the FIFO' "$(realpath d/pair/supervise/out)" "$(readlink "/proc/$(process d/pair)/fd/1")"
}

# A service that exits at once has 4,096 control bytes waiting: svscan ends as soon as it is asked to.
many_bytes() {
  service d/web <<<'exit 1'
  start reported d
  soon 'it runs' 5 is_served d/web
  sleep 1.2
  python3 -c 'import socket
s = socket.socket(socket.AF_UNIX); s.connect("d/web/supervise/control"); s.sendall(b"z" * 4096)'
  sleep 0.2
  svc -x d/.svscan
  soon 'x ends svscan' 10 is_gone "$svscan"
}

# The limit of descriptors is raised while svscan runs: what could not begin begins.
raised_limit() {
  local name
  for name in $(seq 20); do sleeper "d/s$name"; done
  (ulimit -Sn 60; start_session reported d; echo "$svscan" >number)
  svscan=$(cat number)
  soon 'some wait' 10 holds 'unable to supervise: Too many open files$' reported
  prlimit --pid "$svscan" --nofile="$(ulimit -Hn):"
  soon 'all run' 15 sh -c '[ "$(cat d/s*/starts | wc -l)" = 20 ]'
}

# A word that is no number in OPTIND ends dash before its first line: svscan's own shells don't get it.
odd_environment() {
  service d/web <<'END'
END
  printf '#!/usr/bin/env -S -u OPTIND sh\necho $$ >>starts\nexec sleep 1000\n' >d/web/run
  local under=(env OPTIND=x)
  start reported d
  soon 'up' 5 is_settled d/web
  local web
  web=$(process d/web)
  svc -t d/web
  soon 't ends it, and it starts again' 6 is_another d/web "$web"
}

# An adopted service that died and for which nobody waited has ended: it is started again within a second or two.
unreaped() {
  local number
  for number in 1 2 3 4 5; do sleeper "d/w$number"; done
  python3 - "$program" <<'END' &
import ctypes, os, subprocess, sys, time
ctypes.CDLL(None).prctl(36, 1, 0, 0, 0)
svscan = subprocess.Popen([sys.argv[1], "svscan", "d"], stdin=subprocess.DEVNULL, start_new_session=True)
open("first", "w").write(str(svscan.pid))
svscan.wait()
svscan = subprocess.Popen([sys.argv[1], "svscan", "d"], stdin=subprocess.DEVNULL, start_new_session=True)
open("second.new", "w").write(str(svscan.pid)); os.rename("second.new", "second")
time.sleep(60)
END
  local reaper=$! web begin took late=
  for number in 1 2 3 4 5; do soon "w$number is up" 8 is_settled "d/w$number"; done
  echo "$(cat first)" >>"$room/$scenario.groups"
  kill -KILL "$(cat first)"
  soon 'the next one' 5 test -e second
  echo "$(cat second)" >>"$room/$scenario.groups"
  for number in 1 2 3 4 5; do soon "w$number is adopted" 8 is_served "d/w$number"; done
  sleep 1.5
  # At five moments of the five seconds between two rounds.
  for number in 1 2 3 4 5; do
    web=$(process "d/w$number")
    begin=$(micros)
    kill -KILL "$web"
    soon "w$number is a zombie" 3 is_zombie "$web"
    soon "w$number was started again" 5 has_lines 2 "d/w$number/starts"
    is "w$number was started once" 2 "$(count "d/w$number/starts")"
    took=$((($(changed "d/w$number/starts") - begin) / 100000))
    [ "$took" -lt 38 ] || late="$late $took"
    sleep "$(awk -v gone="$((($(micros) - begin) / 1000))" 'BEGIN { print gone < 3000 ? (3000 - gone) / 1000 : 0 }')"
  done
  # Were it seen in a round alone, two of the five would come later. A busy machine may have stood still in one of them.
  lies 'those that were late, in tenths of a second:'"$late" 0 1 "$(wc -w <<<"$late")"
  kill "$reaper"
}

is_zombie() { [ "$(state "$1")" = Z ]; }

# The end has a bound: a logger that is down, and a service whose output is full and that ignores TERM. KILL ends it.
bounded_end() {
  service d/full <<'END'
trap '' TERM
echo $$ >>starts
while :; do echo 'a line that nobody reads'; done
END
  logger d/full/log
  start reported d
  soon 'up' 8 all_are is_settled d/full d/full/log
  svc -d d/full/log
  soon 'the logger is down' 5 is_put_down d/full/log
  sleep 1
  local full
  full=$(process d/full)
  svc -x d/.svscan
  soon 'it is said' 10 holds "^svscan: full: process $full still runs$" reported
  svc -k d/full
  soon 'svscan ends' 15 is_gone "$svscan"
  is 'nothing is left' '' "$(copies_alive d/full/starts d/full/log/starts)"
}
# the processes of these starts that live
copies_alive() { cat "$@" | while read -r number; do lives "$number" && echo "$number"; done; }

# A folder that can't be read ends svscan.
no_folder() {
  ended 'no folder' 111 'svscan: unable to read nosuch: No such file or directory' nosuch
  : >file
  ended 'a file' 111 'svscan: unable to read file: Not a directory' file
}

# A folder that goes away while svscan runs: that is said once, and once more when it is back.
folder_away() {
  sleeper d/web
  start reported d
  soon 'up' 5 is_up d/web
  local pid
  pid=$(process d/web)
  mv d e
  svc -a e/.svscan
  soon 'said that it is away' 8 holds '^svscan: unable to list d: No such file or directory$' reported
  for _ in 1 2 3; do
    svc -a e/.svscan
    sleep 0.5
  done
  is 'said once' 1 "$(grep -c 'unable to list' reported)"
  is 'the service runs on' "$pid" "$(process e/web)"
  mv e d
  svc -a d/.svscan
  soon 'said that it is back' 8 holds '^svscan: d is listed again$' reported
  mv d e
  svc -a e/.svscan
  soon 'said again' 8 has_lines 3 reported
  is 'the same line' 2 "$(grep -c '^svscan: unable to list d: No such file or directory$' reported)"
  mv e d
}

# the session of a process
session_of() { sed 's/.*) //' "/proc/$1/stat" | cut -d ' ' -f 4; }

# Services that begin a session of their own, since their folder has a file `setsid`.
apart() {
  local name pid
  for name in alone common; do sleeper "d/$name"; done
  : >d/alone/setsid
  mkdir -p d/missing d/closed
  : >d/missing/setsid
  : >d/closed/setsid
  : >d/closed/run
  start reported d
  for name in alone common; do soon "$name is up" 5 is_settled "d/$name"; done
  pid=$(process d/alone)
  is 'it leads a session' "$pid" "$(session_of "$pid")"
  soon 'it is run itself' 5 has sleep cat "/proc/$pid/comm"
  is 'another one is in the session of svscan' "$(session_of "$svscan")" "$(session_of "$(process d/common)")"
  soon 'reported of missing' 5 holds '^svscan: missing: unable to run ./run: No such file or directory$' reported
  soon 'reported of closed' 5 holds '^svscan: closed: unable to run ./run: Permission denied$' reported
  mkdir -p d/.group
  printf '#!/bin/sh\necho >>starts\nkill -KILL 0\n' >d/.group/run
  chmod 755 d/.group/run
  : >d/.group/setsid
  mv d/.group d/group
  svc -a d/.svscan
  soon 'one that kills its group starts again' 8 has_lines 2 d/group/starts
  so 'svscan lives' lives "$svscan"
  is 'another one runs on' "$(process d/common)" "$(cat d/common/starts)"
  kill -KILL "$svscan"
  soon 'svscan is gone' 3 is_gone "$svscan"
  start reported d
  soon 'another svscan' 5 all_are is_served d/.svscan d/alone
  is 'it is adopted' "$pid" "$(process d/alone)"
  is 'it started once' 1 "$(count d/alone/starts)"
  svc -k d/alone
  soon 'it starts again' 5 has_lines 2 d/alone/starts
}

# Whether a path is that of a file, and not of a link to one
is_own_file() { [ -f "$1" ] && [ ! -L "$1" ]; }
# Whether the service with the name of a file in supervise has that file
has_own() { is_own_file "d/$1/supervise/$1"; }
has_exit() { exit_says "$(cat "d/$1/starts") signal TERM" "d/$1"; }
# into_fifo PATH: a FIFO takes the place of what is there
into_fifo() { rm -f "$1" && mkfifo "$1"; }

# A FIFO in supervise keeps neither svscan nor the service: to open it would be to wait for ever. Only as `lock` it is refused.
fifos() {
  local name names=(place process status exit ready earlier counts backoff trace)
  for name in plain lock "${names[@]}"; do sleeper "d/$name"; done
  for name in lock "${names[@]}"; do
    mkdir "d/$name/supervise"
    mkfifo "d/$name/supervise/$name"
  done
  start_session reported d
  soon 'a service without one is up' 10 is_settled d/plain
  soon 'all but one are up' 15 all_are is_settled "${names[@]/#/d/}"
  for name in "${names[@]}"; do
    so "$name: up" is_settled "d/$name"
    is "$name: one start" 1 "$(count "d/$name/starts")"
  done
  soon 'files take the places of those that are always there' 10 all_are has_own place process status counts trace
  for name in place process status counts trace; do so "$name: a file takes its place" has_own "$name"; done
  soon 'lock: it is told' 10 holds '^svscan: lock: unable to supervise: Invalid argument$' reported
  is 'lock: it does not start' no "$(exists d/lock/starts)"
  is 'lock: it is not served' 100 "$(is_served d/lock; echo $?)"
  so 'lock: what is there is not touched' test -p d/lock/supervise/lock
  rm d/lock/supervise/lock
  svc -a d/.svscan
  soon 'lock: it is up once the FIFO is gone' 10 is_settled d/lock
  is 'lock: one start' 1 "$(count d/lock/starts)"
  svc -d "${names[@]/#/d/}"
  soon 'd ends each' 10 all_are is_put_down "${names[@]/#/d/}"
  soon 'how each ended is kept' 5 all_are has_exit "${names[@]}"
  for name in "${names[@]}"; do
    so "$name: down" is_put_down "d/$name"
    so "$name: how it ended is kept" has_exit "$name"
  done
  svc -u d/ready d/backoff
  soon 'u starts them anew' 8 all_are is_settled d/ready d/backoff
  is 'the other one is as it was' "$(process d/plain)" "$(cat d/plain/starts)"
  is 'nothing else was reported' 'svscan: lock: unable to supervise: Invalid argument' "$(sort -u reported)"
}

# The same over services that an svscan left which was killed: none waits, and none gets a second process. Nor does one whose
# place is missing.
fifos_left() {
  local name before names=(plain process place gone lock)
  for name in "${names[@]}" both; do sleeper "d/$name"; done
  start_session reported d
  soon 'up' 10 all_are is_settled "${names[@]/#/d/}" d/both
  before=$(for name in "${names[@]}"; do echo "$name $(process "d/$name") 1"; done)
  kill -KILL "$svscan"
  soon 'svscan is dead' 3 is_gone "$svscan"
  into_fifo d/process/supervise/process
  into_fifo d/place/supervise/place
  rm d/gone/supervise/place
  into_fifo d/lock/supervise/lock
  into_fifo d/both/supervise/process
  into_fifo d/both/supervise/place
  start_session reported2 d
  soon 'a service without one is served' 10 is_served d/plain
  soon 'all but one are served' 10 all_are is_served d/process d/place d/gone d/both
  soon 'their processes are found' 10 all_are is_found plain process place gone both
  for name in plain process place gone both; do
    so "$name: served" is_served "d/$name"
    so "$name: its process is found" is_found "$name"
  done
  soon 'lock: it is told' 10 holds '^svscan: lock: unable to supervise: Invalid argument$' reported2
  so 'lock: its process runs on' lives "$(cat d/lock/starts)"
  is 'lock: it is not served' 100 "$(is_served d/lock; echo $?)"
  is 'no second copies' '' "$(copies_of "${names[@]}" both)"
  rm d/lock/supervise/lock
  svc -a d/.svscan
  soon 'lock: it is served once the FIFO is gone' 10 is_served d/lock
  soon 'lock: its process is found' 8 is_found lock
  for name in "${names[@]}"; do
    is "$name: the same process, started once" "$(grep "^$name " <<<"$before")" \
      "$name $(process "d/$name") $(count "d/$name/starts")"
  done
  is 'both: started once' 1 "$(count d/both/starts)"
  # Nothing but the record names the process of this one, and svscan may be unsure: it starts once that process is gone.
  own "$(cat d/both/starts)" | xargs -r kill -KILL
  svc -k "${names[@]/#/d/}"
  soon 'each starts again' 10 all_are has_second "${names[@]}" both
  soon 'up again' 10 all_are is_settled "${names[@]/#/d/}" d/both
  for name in "${names[@]}" both; do is "$name: two starts" 2 "$(count "d/$name/starts")"; done
  for name in process place; do so "$name: a file takes its place" has_own "$name"; done
  is 'no second copies now' '' "$(copies_of "${names[@]}" both)"
  is 'nothing else was reported' 'svscan: lock: unable to supervise: Invalid argument' \
    "$(cat reported reported2 | grep -v "^svscan: both: process [0-9]* still runs\$" | sort -u)"
}
has_second() { has_lines 2 "d/$1/starts"; }

# The copy of a folder has the records of another service. They adopt nobody: each service has a process of its own, and a
# signal for the one does not reach the other. That is so if svscan runs, even if the process left its folder, and if the
# next svscan finds the copy.
copied() {
  local web away name
  sleeper d/web
  service d/away <<'END'
echo $$ >>starts
cd /
exec sleep 1000
END
  start_session reported1 d
  soon 'up' 10 all_are is_settled d/web d/away
  web=$(process d/web)
  away=$(process d/away)
  mkdir made
  for name in web away; do
    cp -a "d/$name" "made/a$name"
    rm "made/a$name/starts"
    mv "made/a$name" "d/a$name"
  done
  svc -a d/.svscan
  soon 'copies start by themselves' 10 all_are is_settled d/aweb d/aaway
  svc -dk d/aweb d/aaway
  soon 'd and k end the copies' 5 all_are is_put_down d/aweb d/aaway
  so 'the first one runs on' lives "$web"
  so 'and the other one' lives "$away"
  is 'each is the process of its service' "$web $away" "$(process d/web) $(process d/away)"
  kill -KILL "$svscan"
  soon 'svscan is dead' 3 is_gone "$svscan"
  cp -a d/web d/again
  rm d/again/starts
  start_session reported2 d
  soon 'all are served' 10 all_are is_served d/web d/away d/again
  soon 'the copy starts by itself' 10 is_settled d/again
  soon 'the first one is adopted' 5 begins "d/web: up (pid $web)" d/web
  is 'the copy has a process of its own' "$(cat d/again/starts)" "$(process d/again)"
  svc -dk d/again
  soon 'd and k end it' 5 is_put_down d/again
  so 'the first one runs on still' lives "$web"
  is 'each start by itself' '1 1 1 1 1' \
    "$(for name in web away aweb aaway again; do count "d/$name/starts"; done | paste -sd ' ')"
}

# A setting that is no file, but a FIFO or a folder, is told as a bad text is, and does not count either.
odd_settings() {
  local kind name each=() names=(timeout-kill timeout-finish backoff notification-fd)
  # TERM ends it only once there is a file go.
  for name in fifo-timeout-kill folder-timeout-kill timed; do
    service "d/$name" <<'END'
trap 'echo TERM >>signals; [ ! -e go ] || exit 0' TERM
echo $$ >>starts
while :; do sleep 0.1; done
END
  done
  echo 2 >d/timed/timeout-kill
  sleeper d/plain
  for kind in fifo folder; do
    sleeper "d/$kind-timeout-finish"
    finish "d/$kind-timeout-finish" <<'END'
sed 's/.*) //' /proc/$$/stat | cut -d ' ' -f 20 >tick
exec sleep 1000
END
    falls "d/$kind-backoff"
    sleeper "d/$kind-notification-fd"
    for name in "${names[@]}"; do each+=("d/$kind-$name"); done
  done
  for name in "${names[@]}"; do
    mkfifo "d/fifo-$name/$name"
    mkdir "d/folder-$name/$name"
  done
  start reported d
  soon 'services without one are up' 10 all_are is_settled d/plain d/timed
  soon 'all are served' 10 all_are is_served "${each[@]}"
  for kind in fifo folder; do
    for name in timeout-kill timeout-finish notification-fd; do soon "$kind $name: up" 8 is_settled "d/$kind-$name"; done
    soon "$kind backoff: more than five starts" 20 has_lines 7 "d/$kind-backoff/starts"
    is "$kind backoff: it does not wait" no "$(exists "d/$kind-backoff/supervise/backoff")"
    is "$kind notification-fd: no FIFO is made" no "$(exists "d/$kind-notification-fd/supervise/notify")"
    is "$kind notification-fd: its process has no other descriptors" "$(descriptors "$(process d/plain)")" \
      "$(descriptors "$(process "d/$kind-notification-fd")")"
  done
  svc -d "${each[@]}"
  for kind in fifo folder; do
    soon "$kind timeout-kill: it gets TERM" 5 has_lines 1 "d/$kind-timeout-kill/signals"
    soon "$kind notification-fd: d ends it" 5 is_put_down "d/$kind-notification-fd"
    soon "$kind backoff: d ends it" 5 is_put_down "d/$kind-backoff"
    soon "$kind timeout-finish: d ends it" 15 is_put_down "d/$kind-timeout-finish"
    lies "$kind timeout-finish: 5 seconds count: ticks" 490 100000 \
      "$(apart_ticks "$(cat "d/$kind-timeout-finish/tick")" self)"
  done
  # One whose time is 2 seconds is asked later, and gets KILL before.
  svc -d d/timed
  soon 'one with a time gets KILL' 10 is_put_down d/timed
  for kind in fifo folder; do
    so "$kind timeout-kill: it has no time" is_up "d/$kind-timeout-kill"
    touch "d/$kind-timeout-kill/go"
    svc -d "d/$kind-timeout-kill"
    soon "$kind timeout-kill: d ends it" 5 is_put_down "d/$kind-timeout-kill"
    is "$kind timeout-kill: no KILL" "$(cat "d/$kind-timeout-kill/starts") status 0" \
      "$(cut -d ' ' -f 1-3 "d/$kind-timeout-kill/supervise/exit")"
    is "$kind timeout-kill: it is told" \
      "svscan: $kind-timeout-kill: timeout-kill is no number of seconds: it does not count" \
      "$(grep "^svscan: $kind-timeout-kill: " reported | sort -u)"
    is "$kind timeout-finish: it is told" \
      "svscan: $kind-timeout-finish: timeout-finish is no number of seconds: 5 seconds count" \
      "$(grep "^svscan: $kind-timeout-finish: " reported | sort -u)"
    is "$kind backoff: it is told" \
      "svscan: $kind-backoff: backoff is no number of seconds from 1 to 3600: it does not count" \
      "$(grep "^svscan: $kind-backoff: " reported | sort -u)"
    is "$kind notification-fd: it is told" \
      "svscan: $kind-notification-fd: notification-fd is no number from 3 to 9: it does not count" \
      "$(grep "^svscan: $kind-notification-fd: " reported | sort -u)"
    is "$kind timeout-finish: one start" 1 "$(count "d/$kind-timeout-finish/starts")"
  done
  is 'nothing else was reported' 8 "$(sort -u reported | wc -l)"
}

# A link in supervise does not lead svscan to a file elsewhere.
led_away() {
  local name names=(place void lock empty)
  for name in plain "${names[@]}"; do sleeper "d/$name"; done
  for name in "${names[@]}"; do mkdir "d/$name/supervise"; done
  seq -w 100 >far
  cp far kept
  ln -s "$PWD/far" d/place/supervise/place
  ln -s "$PWD/nothing" d/void/supervise/place
  echo kept >locked
  chmod 644 locked
  ln -s "$PWD/locked" d/lock/supervise/lock
  ln -s "$PWD/made" d/empty/supervise/lock
  is 'the file has 400 bytes' 400 "$(stat -c %s far)"
  start reported d
  soon 'up' 10 all_are is_settled d/plain d/place d/void
  for name in lock empty; do
    soon "$name: it is told" 10 holds "^svscan: $name: unable to supervise: Invalid argument\$" reported
    is "$name: it does not start" no "$(exists "d/$name/starts")"
    is "$name: it is not served" 100 "$(is_served "d/$name"; echo $?)"
    so "$name: it is a link still" test -L "d/$name/supervise/lock"
  done
  svc -d d/place d/void
  soon 'd' 5 all_are is_put_down d/place d/void
  for name in place void; do
    so "$name: a file takes the place of the link" is_own_file "d/$name/supervise/place"
    is "$name: as long as any, for its owner alone" '160 600' "$(stat -c '%s %a' "d/$name/supervise/place")"
    is "$name: one start" 1 "$(count "d/$name/starts")"
  done
  so 'place: what the link names has its bytes' cmp kept far
  is 'place: and its mode' 644 "$(stat -c %a far)"
  is 'void: what the link names is not made' no "$(exists nothing)"
  is 'lock: what the link names has its mode and its bytes' '644 kept' "$(stat -c %a locked) $(cat locked)"
  is 'empty: what the link names is not made' no "$(exists made)"
  rm d/lock/supervise/lock d/empty/supervise/lock
  svc -a d/.svscan
  soon 'up once the links are gone' 10 all_are is_settled d/lock d/empty
  for name in lock empty; do is "$name: a lock of its own" 600 "$(stat -c %a "d/$name/supervise/lock")"; done
  is 'nothing else was reported' 'svscan: empty: unable to supervise: Invalid argument
svscan: lock: unable to supervise: Invalid argument' "$(sort -u reported)"
}

# play SCENARIO: in a folder of its own
play() {
  scenario=$1
  checked=0
  failed=0
  mkdir "$scenario"
  cd "$scenario" || exit 1
  "$scenario"
  [ -e "$room/$scenario.groups" ] && kill_groups "$room/$scenario.groups"
  echo "$checked $failed" >"$room/$scenario.count"
}

has_counts() {
  local name
  for name in "$@"; do [ -s "$room/$name.count" ] || return 1; done
}

# play_all SCENARIO..: side by side, until all have ended
play_all() {
  local each ran wrong
  set -m
  for each in "$@"; do
    (play "$each") </dev/null &
    echo $! >>"$room/scenarios.groups"
    disown
  done
  set +m
  until_true 100 has_counts "$@"
  for each in "$@"; do
    if ! read -r ran wrong 2>/dev/null <"$room/$each.count"; then
      echo "FAILED $each: it did not end in time"
      ran=1
      wrong=1
    fi
    checked=$((checked + ran))
    failed=$((failed + wrong))
  done
}

# The wall clock is set back by an hour, and then on by two, while services settle, rest and run: svscan goes on, and hears svc.
stepped() {
  command -v cc >/dev/null || { echo 'svscan stepped: skipped, cc is missing'; return; }
  cc -O1 -shared -fPIC -o clock.so "$folder/clock.c" || return
  local step before
  sleeper d/web
  sleeper d/rests
  service d/flaps <<'END'
echo $$ >>starts
END
  # No start can be recorded there, so each one fails.
  mkdir -p d/rests/supervise/place
  echo 0 >step
  under=(env LD_PRELOAD="$PWD/clock.so" CLOCK_STEP="$PWD/step")
  start reported d
  under=()
  soon 'up' 5 is_settled d/web
  soon 'one ends again and again' 5 has_lines 2 d/flaps/starts
  soon 'one rests' 5 ends ', resting' d/rests
  for step in -3600 3600; do
    before=$(count d/flaps/starts)
    echo "$step" >step
    soon "$step: it starts again and again" 5 has_lines $((before + 3)) d/flaps/starts
    svc -d d/flaps
    soon "$step: d" 3 is_put_down d/flaps
    svc -u d/flaps
    before=$(process d/web)
    svc -t d/web
    soon "$step: t" 5 is_another d/web "$before"
    soon "$step: it settles" 5 is_settled d/web
  done
  rmdir d/rests/supervise/place
  echo -3600 >step
  soon 'what rested starts' 5 is_settled d/rests
  is 'once' 1 "$(count d/rests/starts)"
}

# Two svscans share a session, as in a container. One of them is killed in the middle of a start, and nothing of that start is
# left. The next one starts the service: a process that the other svscan has started since then runs in the folder that names it.
# If such a process has a child in the service's folder, it is not taken up either: the service waits until it is gone.
crowded() {
  local name other session init want boot
  sleeper d/web
  sleeper d/near
  sleeper e/other
  service e/guest <<'END'
echo $$ >>starts
(cd ../../d/near && exec sleep 1000) &
echo $! >child
wait
END
  setsid bash -c '
    "$0" svscan e 2>>reported.e & echo $! >svscans
    "$0" svscan d 2>>reported.d & echo $! >>svscans
    until [ -e next ]; do sleep 0.05; done
    "$0" svscan d 2>>reported &
    wait' "$program" </dev/null >/dev/null 2>&1 &
  echo "$!" >>"$room/$scenario.groups"
  soon 'up' 10 all_are is_settled d/web d/near e/other e/guest
  kill -KILL "$(tail -n 1 svscans)"
  soon 'svscan is dead' 3 not lives "$(tail -n 1 svscans)"
  for name in web near; do
    kill -KILL "$(process "d/$name")"
    # PID TICK SESSION INIT WANT BOOT, as svscan writes it before a start
    read -r _ _ session init want boot <"d/$name/supervise/place"
    echo "0 $(awk '{ print int($1 * 100) }' /proc/uptime) $session $init $want $boot" >"d/$name/supervise/place"
  done
  for name in other guest; do
    other=$(process "e/$name")
    svc -t "e/$name"
    soon "$name starts again" 5 is_another "e/$name" "$other"
  done
  soon 'both have settled' 5 all_are is_settled e/other e/guest
  other=$(process e/guest)
  : >next
  soon 'the service starts' 5 is_settled d/web
  soon 'next to a guest it waits' 5 holds "^svscan: near: process $other still runs\$" reported
  so 'it has no process' is_down d/near
  svc -d e/guest
  kill "$(cat e/guest/child)"
  soon 'then it starts' 5 is_settled d/near
  is 'each once' '2 2' "$(count d/web/starts) $(count d/near/starts)"
  is 'the other svscan keeps its service' 2 "$(count e/other/starts)"
  is 'nothing else was reported' '' "$(cat reported.e reported.d; grep -v '^svscan: near: process [0-9]* still runs$' reported)"
}

scenarios=(life modes_kept delegated exits endings finishes bounded_finish timed_kill timed_kill_left ready ready_left bridged backs_off backs_off_left killed_finish no_run links stubborn killed_service killed_svscan killed_early unnamed starved unwritten new_boot other_user earlier_record elsewhere changes twice names silent
  connections no_supervise unheard rounds untaken itself refused last_words upgraded unread ordered first_process two_services child begins_anew shortage
  descriptors_reported batches unchanged resting full_disk full_put_down placeless held_locks held_pair many_bytes raised_limit
  odd_environment unreaped bounded_end no_folder folder_away apart fifos fifos_left odd_settings led_away copied switched bared crowded stepped)
# These keep every processor busy, and have the machine for themselves.
crowds=(killed_logger late_logger last_entries given_back many)
shift
if [ $# -gt 0 ]; then
  play_all "$@"
else
  play_all "${scenarios[@]}"
  play_all "${crowds[@]}"
fi

counts svscan

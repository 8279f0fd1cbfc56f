#!/usr/bin/env bash
# When `dtools wait` and `dtools restart` return, and what they say, over services of a real svscan and over folders that are made here: sockets at
# which python3 listens, and status records of given bytes. Runs the program that the first word names. The wanted lines
# and statuses are those of docs/FORMATS.md. No check rests on how fast this machine is: each waits for what it needs.
# gate: 60 seconds, needs python3
. "$(dirname "$0")/checks.sh" "$1"
export LC_ALL=C
listeners=()
leave() {
  [ -n "${svscan:-}" ] && kill_group "$svscan"
  own "${listeners[@]}" | xargs -r kill -KILL 2>/dev/null
  for _ in 1 2 3 4 5; do rm -rf "$room" 2>/dev/null && break; sleep 0.2; done
}
trap leave EXIT
trap 'exit 1' INT TERM HUP

# until_true COMMAND..: tries the command each 50 ms, for two minutes at most
until_true() {
  local tries
  for tries in $(seq 2400); do
    "$@" && return
    sleep 0.05
  done
  return 1
}

# ended NAME STATUS REPORTED WORDS..: wait with these words ends by itself, with this status, and says this
ended() { ends wait "$@"; }

# restarted NAME STATUS REPORTED WORDS..: the same of restart
restarted() { ends restart "$@"; }

# ends COMMAND NAME STATUS REPORTED WORDS..
ends() {
  local command=$1 name=$2 status=$3 reported=$4
  shift 4
  timeout -k 1 300 "$program" "$command" "$@" >out 2>reported </dev/null
  is "$name: status" "$status" "$?"
  is "$name: reported" "$reported" "$(cat reported)"
  is "$name: printed" '' "$(cat out)"
}

# whether the command that `timeout` runs has looked, and rests until its next look
rests() {
  local child
  read -r child _ <"/proc/$waiting/task/$waiting/children"
  [ "/proc/$child/exe" -ef "$program" ] && [[ $(sed 's/.*) //' "/proc/$child/stat") == S* ]]
} 2>/dev/null

# begun NAME WORDS..: starts wait with these words, whose number is left in waiting; it is still there after two looks
begun() {
  local name=$1
  shift
  timeout -k 1 300 "$program" wait "$@" >out 2>reported </dev/null &
  waiting=$!
  until_true rests
  sleep 0.3
  is "$name: it waits" yes "$(kill -0 "$waiting" 2>/dev/null && echo yes)"
}

# over NAME STATUS REPORTED: what was begun ends so
over() {
  wait "$waiting"
  is "$1: status" "$2" "$?"
  is "$1: reported" "$3" "$(cat reported)"
  is "$1: printed" '' "$(cat out)"
}

# listen FOLDER: somebody accepts at its socket supervise/ok, and adds a byte to supervise/looks for each connection; the
# number of that process is left in listener
listen() {
  mkdir -p "$1/supervise"
  rm -f "$1/supervise/ok" "$1/supervise/listens"
  (cd "$1" && exec python3 -c '
import socket
door = socket.socket(socket.AF_UNIX)
door.bind("supervise/ok")
door.listen(64)
open("supervise/listens", "w").close()
looks = open("supervise/looks", "ab", 0)
while True:
    door.accept()[0].close()
    looks.write(b".")
') &
  listener=$!
  disown
  listeners+=("$listener")
  until_true test -e "$1/supervise/listens" || { echo "wait: nobody listens in $1"; exit 1; }
}

# looked NUMBER FOLDER: whether it was looked at so often
looked() { [ "$(stat -c %s "$2/supervise/looks")" -ge "$1" ]; }

# status FOLDER DIGITS: its status record, as supervise replaces it
status() {
  bytes "$2" >"$1/supervise/status.new"
  mv "$1/supervise/status.new" "$1/supervise/status"
}
# The front of each record: a label, and then the process number: of one that lives and soon has lived for two seconds; of one
# that has ended, and has not been waited for; and of one that is gone.
# number PID: its four bytes in a record
number() { printf '%02x%02x%02x%02x' $(($1 & 255)) $((($1 >> 8) & 255)) $((($1 >> 16) & 255)) $((($1 >> 24) & 255)); }
label=4000000065000000000000ff
sleep 1000 &
lasting=$!
listeners+=("$lasting")
disown
python3 -c '
import os, time
child = os.fork()
if child == 0:
    os._exit(0)
open("zombie.new", "w").write(str(child))
os.rename("zombie.new", "zombie")
time.sleep(1000)
' &
listeners+=($!)
disown
until_true test -e zombie
sleep 0 &
ended=$!
wait "$ended"
some=$(number "$lasting") zombie=$(number "$(cat zombie)") ended=$(number "$ended")
none=00000000 up=75 down=64 once=00
sleep 2.2
starting=00 settling=01 resting=02 phase_up=03 phase_down=04 gone=05

# Records: which of them each goal takes. With -t 0 one look is taken.
# found NAME DIGITS UP DOWN: whether -u and -d take this record
found() {
  status s "$2"
  local up_reported='' down_reported=''
  [ "$3" = 0 ] || up_reported='wait: s: not up in time'
  [ "$4" = 0 ] || down_reported='wait: s: not down in time'
  ended "$1: -u" "$3" "$up_reported" -u -t 0 s
  ended "$1: -d" "$4" "$down_reported" -t 0 -d s
  ended "$1: -x" 99 'wait: s: still supervised' -x -t 0 s
}
listen s
ok=$listener
found 'starting' "$label$none"00$up"00$starting" 99 99
found 'settling' "$label$some"00$up"00$settling" 99 99
found 'resting' "$label$none"00$up"00$resting" 99 99
found 'up' "$label$some"00$up"00$phase_up" 0 99
found 'up, once' "$label$some"00$once"00$phase_up" 0 99
found 'up, paused' "$label$some"01$up"00$phase_up" 0 99
found 'up, to go down and to end' "$label$some"00$down"01$phase_up" 0 99
found 'down' "$label$none"00$down"00$phase_down" 99 0
found 'down after once' "$label$none"00$once"00$phase_down" 99 0
found 'gone' "$label$none"00$down"01$gone" 99 0
found 'gone, wanted up' "$label$none"00$up"01$gone" 99 0
found 'of 18 bytes, with a process' "$label$some"00$up 0 99
found 'of 18 bytes, process 16777216, which is not there' "$label"00000001"00$down" 99 99
found 'of 18 bytes, without one' "$label$none"00$up 99 0
# Readiness: which processes and which lines of the file ready -U takes.
later=@4000000065000001000000ff sooner=@4000000065000000000000fe
# prepared NAME STATUS PROCESS [LINE]: whether -U takes a record that is settling, or starting if there is no process, of this
# process, with this line
prepared() {
  local phase=$settling
  [ "$3" = "$none" ] && phase=$starting
  status s "$label$3"00$up"00$phase"
  rm -f s/supervise/ready
  [ -z "${4-}" ] || echo "$4" >s/supervise/ready
  local reported=''
  [ "$2" = 0 ] || reported='wait: s: not ready in time'
  ended "ready: $1" "$2" "$reported" -U -t 0 s
}
prepared 'no file' 99 "$some"
prepared 'its process' 0 "$some" "$lasting $later"
prepared 'its process, as it began' 0 "$some" "$lasting @$label"
prepared 'one with its number that ended before' 99 "$some" "$lasting $sooner"
prepared 'another process' 99 "$some" "1$lasting $later"
prepared 'a process that has ended' 99 "$zombie" "$(cat zombie) $later"
prepared 'no process' 99 "$none" "0 $later"
prepared 'no line of svscan' 99 "$some" "$lasting ready"
rm -f s/supervise/ready
# A record that says up, of a process that has ended, is no service that is up: supervise has not taken the death yet.
found 'up, and its process is gone' "$label$ended"00$up"00$phase_up" 99 99
found 'up, and its process is a zombie' "$label$zombie"00$up"00$phase_up" 99 99
found 'of 18 bytes, and its process is gone' "$label$ended"00$up 99 99
sleep 1000 &
young=$!
listeners+=("$young")
disown
found 'up, and its process is young' "$label$(number "$young")"00$up"00$phase_up" 99 99
ended 'up, and its process grows older' 0 '' -t 100 s
status s "$label$zombie"00$up"00$phase_up"
ended 'a dead one does not come up' 99 'wait: s: not up in time' -t 3 s

# Statuses that are none. For -x they do not matter.
# bad NAME DIGITS KIND
bad() {
  status s "$2"
  ended "$1: -u" 111 "wait: s: bad status record: $3" s
  ended "$1: -d" 111 "wait: s: bad status record: $3" -d s
  ended "$1: -x" 99 'wait: s: still supervised' -x -t 0 s
}
bad 'empty' '' Length
bad '19 bytes' "$label$some"00$up"00" Length
bad '21 bytes' "$label$some"00$up"00$phase_up"00 Length
bad 'no label' "ffffffff65000000000000ff$some"00$up"00$phase_up" BadLabel
bad 'paused twice' "$label$some"02$up"00$phase_up" PausedFlag
bad 'paused, no process' "$label$none"01$up"00$phase_up" PausedNoProcess
bad 'wants what is not' "$label$some"00ff"00$phase_up" WantByte
bad 'ends twice' "$label$some"00$up"02$phase_up" ExitingFlag
bad 'a phase beyond' "$label$some"00$up"0006" PhaseNumber
bad 'up without a process' "$label$none"00$up"00$phase_up" NoSuchState
rm s/supervise/status
ended 'no status: -u' 111 'wait: s: unable to read status' s
ended 'no status: -d' 111 'wait: s: unable to read status' -d s
ended 'no status: -x' 99 'wait: s: still supervised' -x -t 0 s
# svscan writes the first status just after it has begun to supervise a service.
ended 'no status in time' 99 'wait: s: not up in time' -t 1 s
begun 'no status yet' -d -t 100 s
status s "$label$none"00$down"00$phase_down"
over 'the first status' 0 ''
rm s/supervise/status
mkfifo s/supervise/status
ended 'a status that is a pipe' 111 'wait: s: unable to read status' s
rm s/supervise/status

# Changes.
status s "$label$none"00$up"00$starting"
begun 'it comes up' s
status s "$label$some"00$up"00$settling"
sleep 0.3
is 'it settles: it waits' yes "$(kill -0 "$waiting" 2>/dev/null && echo yes)"
status s "$label$some"00$up"00$phase_up"
over 'it comes up' 0 ''
begun 'it goes down' -d -t 100 -- s
status s "$label$none"00$down"00$phase_down"
over 'it goes down' 0 ''
begun 'a record that is none comes' -u s
status s 00
over 'a record that is none comes' 111 'wait: s: bad status record: Length'

# The time: it does not end before it, and then it does. Between two looks are 45 ms at least, on any machine, and if nothing
# changes, after the first second or so, 22 times as much: so in four seconds are 27 at most.
status s "$label$none"00$down"00$phase_down"
: >s/supervise/looks
began=${EPOCHREALTIME/[.,]/}
ended 'the time is over' 99 'wait: s: not up in time' -t 4 s
took=$(((${EPOCHREALTIME/[.,]/} - began) / 1000))
is "the time: at least 4 s, and it was $took ms" yes "$([ "$took" -ge 4000 ] && echo yes)"
looks=$(stat -c %s s/supervise/looks)
is "the time: 2 to 27 looks, and there were $looks" yes "$([ "$looks" -ge 2 ] && [ "$looks" -le 27 ] && echo yes)"

# If something changes meanwhile, looks come one rest apart: ten of them without that would take ten seconds.
: >s/supervise/looks
begun 'it changes in a quiet time' s
until_true looked 26 s
began=${EPOCHREALTIME/[.,]/}
looks=$(stat -c %s s/supervise/looks)
status s "$label$none"00$up"00$starting"
until_true looked $((looks + 11)) s
took=$(((${EPOCHREALTIME/[.,]/} - began) / 1000))
is "it changes in a quiet time: looks soon, and it was $took ms" yes "$([ "$took" -le 9000 ] && echo yes)"
status s "$label$some"00$up"00$phase_up"
over 'it changes in a quiet time' 0 ''
status s "$label$none"00$down"00$phase_down"

# Another process: it has another number than the one that the first look saw, or another label.
sleep 1000 &
other=$(number $!)
listeners+=($!)
disown
later=4000000065000001000000ff
sleep 2.2
status s "$label$some"00$up"00$phase_up"
ended 'the same process: -u' 0 '' -u -t 0 s
ended 'the same process: -r' 99 'wait: s: not restarted in time' -r -t 1 s
begun 'another number' -r s
status s "$label$some"01$up"00$phase_up"
sleep 0.3
is 'another number: the same process, paused' yes "$(kill -0 "$waiting" 2>/dev/null && echo yes)"
status s "$later$none"00$up"00$resting"
sleep 0.3
is 'another number: none' yes "$(kill -0 "$waiting" 2>/dev/null && echo yes)"
status s "$later$other"00$up"00$settling"
sleep 0.3
is 'another number: it settles' yes "$(kill -0 "$waiting" 2>/dev/null && echo yes)"
status s "$later$other"00$up"00$phase_up"
over 'another number' 0 ''
status s "$label$some"00$up"00$phase_up"
begun 'the number comes again' -t 100 -r s
status s "$later$some"00$up"00$phase_up"
over 'the number comes again' 0 ''
status s "$label$some"00$up
begun 'of 18 bytes' -r s
status s "$later$other"00$up
over 'of 18 bytes' 0 ''
status s "$label$some"00$up"00$settling"
begun 'it settles at the first look' -r s
status s "$label$some"00$up"00$phase_up"
sleep 0.3
is 'it settles at the first look: the same process is up' yes "$(kill -0 "$waiting" 2>/dev/null && echo yes)"
status s "$later$other"00$up"00$phase_up"
over 'it settles at the first look' 0 ''
for phase in $starting $resting; do
  status s "$label$none"00$up"00$phase"
  begun "no process in phase $phase at the first look" -r s
  status s "$label$some"00$up"00$phase_up"
  over "no process in phase $phase at the first look" 0 ''
done
status s "$label$none"00$down"00$phase_down"
begun 'down at the first look' -r s
status s "$label$some"00$up"00$phase_up"
over 'down at the first look' 0 ''
status s 00
ended 'no record at the first look' 111 'wait: s: bad status record: Length' -r s
rm s/supervise/status
ended 'no status at the first look' 111 'wait: s: unable to read status' -r -t 100 s
ended 'nobody is there at the first look' 102 'wait: nosuch: supervise not running
wait: nosuch: No such file or directory' -r nosuch
ended 'nobody is there at the first look, with a time' 99 'wait: nosuch: not restarted in time
wait: nosuch: No such file or directory' -r -t 0 nosuch

# A restart sends to services with a process alone. Here nobody listens at a socket `control`.
status s "$label$some"00$up"00$phase_up"
restarted 'not reached' 111 'restart: warning: unable to control s: not running' -t 100 s
status s "$label$none"00$up"00$resting"
restarted 'no process: nothing is sent' 99 'restart: s: not restarted in time' -t 0 s
status s "$label$none"00$down"00$phase_down"
restarted 'wanted down' 100 'restart: s: not wanted up' s
status s "$label$some"00$down"00$phase_up"
restarted 'wanted down, and still up' 100 'restart: s: not wanted up' -t 100 s
status s "$label$some"00$once"00$phase_up"
restarted 'wanted once' 100 'restart: s: not wanted up' -t 100 -- s
status s "$label$some"00$up
restarted 'of 18 bytes: not reached' 111 'restart: warning: unable to control s: not running' s
status s 00
restarted 'no record' 111 'restart: s: bad status record: Length' s
rm s/supervise/status
restarted 'no status' 111 'restart: s: unable to read status' s
restarted 'nobody is there' 102 'restart: nosuch: supervise not running
restart: nosuch: No such file or directory' nosuch
restarted 'nobody is there, with a time' 99 'restart: nosuch: not restarted in time
restart: nosuch: No such file or directory' -t 1 nosuch
status s "$label$none"00$down"00$phase_down"

# Several: each was found once, at whatever moment. One that was found is not looked at again.
listen t
status t "$label$some"00$up"00$phase_up"
: >s/supervise/looks
begun 'two, one after the other' s t s
until_true looked 3 s
status t "$label$none"00$down"00$phase_down"
status s "$label$some"00$up"00$phase_up"
over 'two, one after the other' 0 ''
status s "$label$none"00$down"00$phase_down"
ended 'those that are left' 99 'wait: t: not up in time
wait: s: not up in time' -t 0 t s
status t "$label$some"00$up"00$phase_up"
ended 'the one that is left' 99 'wait: s: not up in time' -t 0 t s
ended 'one twice' 99 'wait: s: not up in time
wait: s: not up in time' -t 0 s t s
ended 'the first that is not supervised' 102 'wait: nosuch: supervise not running
wait: nosuch: No such file or directory
wait: nowhere: No such file or directory' s t nosuch nowhere
status t 00
ended 'the first fault' 111 'wait: t: bad status record: Length
wait: nosuch: No such file or directory' s t nosuch
ended 'the first fault, the other way round' 102 'wait: nosuch: supervise not running
wait: nosuch: No such file or directory' s nosuch t
status t "$label$some"00$up"00$phase_up"

# Its supervision ends meanwhile.
begun 'nobody answers any more: -u' s
kill -KILL "$ok"
over 'nobody answers any more: -u' 102 'wait: s: supervise not running'
ended 'nobody answers any more: -x' 0 '' -x s
listen s
ok=$listener
status s "$label$some"00$up"00$phase_up"
begun 'nobody answers any more: -d, of two' -d t s
kill -KILL "$ok"
over 'nobody answers any more: -d, of two' 102 'wait: s: supervise not running'
listen s
ok=$listener
begun 'nobody answers any more: -x, of two' -x nosuch s
kill -KILL "$ok"
over 'nobody answers any more: -x, of two' 0 'wait: nosuch: No such file or directory'

# With a time, a service that is not supervised is waited for: until it is, or the time is over.
ended 'not supervised, with a time' 99 'wait: nosuch: not up in time
wait: nosuch: No such file or directory' -t 0 nosuch
ended 'not supervised, with a time, -d' 99 'wait: nosuch: not down in time
wait: nosuch: No such file or directory' -d -t 1 nosuch
begun 'supervised in time: -u' -t 100 s
listen s
ok=$listener
over 'supervised in time: -u' 0 ''
begun 'no longer supervised, and then again' -t 100 -d s
kill -KILL "$ok"
sleep 0.3
is 'no longer supervised, and then again: it waits on' yes "$(kill -0 "$waiting" 2>/dev/null && echo yes)"
status s "$label$none"00$down"00$phase_down"
listen s
ok=$listener
over 'no longer supervised, and then again' 0 ''
status s "$label$some"00$up"00$phase_up"
kill -KILL "$ok"
: >file
ended 'a file in place of a folder' 102 'wait: file: supervise not running
wait: file: Not a directory' file

# Somebody is there, and takes no more connections: it is looked at again.
mkdir -p full/supervise
python3 -c '
import os, socket, time
door = socket.socket(socket.AF_UNIX)
door.bind("full/supervise/ok")
door.listen(0)
first = socket.socket(socket.AF_UNIX)
first.connect("full/supervise/ok")
open("full/supervise/listens", "w").close()
while not os.path.exists("full/accept"):
    time.sleep(0.02)
while True:
    door.accept()[0].close()
' &
listeners+=($!)
disown
until_true test -e full/supervise/listens
status full "$label$some"00$up"00$phase_up"
ended 'a full queue: -t 0' 99 'wait: full: not up in time' -t 0 full
ended 'a full queue: -x' 99 'wait: full: still supervised' -x -t 0 full
ended 'a full queue: -r' 111 'wait: full: unable to open supervise/ok: no answer' -r -t 100 full
restarted 'a full queue: restart' 111 'restart: full: unable to open supervise/ok: no answer' -t 100 full
begun 'a full queue' full
: >full/accept
over 'a full queue' 0 ''

# As another user, if this one may be that.
if [ "$(id -u)" = 0 ] && command -v setpriv >/dev/null; then
  chmod 711 . t
  chmod 700 t/supervise
  cp "$program" "/tmp/wait.$$" && chmod 755 "/tmp/wait.$$"
  for goal in -u -d -x -r; do
    timeout 300 setpriv --reuid=65534 --regid=65534 --clear-groups "/tmp/wait.$$" wait $goal t >out 2>reported
    is "no permission: $goal: status" 111 "$?"
    is "no permission: $goal: reported" 'wait: t: unable to open supervise/ok: Permission denied' "$(cat reported)"
  done
  timeout 300 setpriv --reuid=65534 --regid=65534 --clear-groups "/tmp/wait.$$" restart t >out 2>reported
  is 'no permission: restart: status' 111 "$?"
  is 'no permission: restart: reported' 'restart: t: unable to open supervise/ok: Permission denied' "$(cat reported)"
  rm -f "/tmp/wait.$$"
fi

# Names of folders.
for name in 'a b' '%s%n' '*' "it's" '"quoted"' $'two\nlines' 'ä€' '-x' '$HOME' '{x}' '\\' "$(printf 'n%.0s' $(seq 200))"; do
  listen "./$name"
  status "./$name" "$label$some"00$up"00$phase_up"
  ended "the name $name" 0 '' -t 100 -u -- "$name"
  ended "the name $name: reported" 99 "wait: $name: not down in time" -d -t 0 -- "$name"
done
long=$room/$(printf 'n%.0s' $(seq 200))
ended 'a long path' 0 '' "$long"
far=$(printf '/%.0s' $(seq 5000))
ended 'a path beyond all' 102 "wait: $far: supervise not running
wait: $far: File name too long" "$far"
ended 'no name' 102 'wait: : supervise not running
wait: : No such file or directory' ''

# Words.
usage='dtools: usage
dtools wait [-u|-U|-d|-x|-r] [-t SECONDS] SERVICE..; u up, U ready, d down, x no longer supervised, r restarted'
ended 'no words' 100 "$usage"
ended 'no service' 100 "$usage" -u
ended 'no service behind --' 100 "$usage" -t 1 --
ended 'no seconds' 100 "$usage" -t
ended 'words for seconds' 100 "$usage" -t t t
for number in '' 01 +1 -1 1.5 ' 1' 4294967296 18446744073709551616; do
  ended "seconds of $number" 100 "$usage" -t "$number" t
done
ended 'the most seconds' 0 '' -t 4294967295 t
ended 'two goals' 100 "$usage" -u -d t
ended 'one goal twice' 100 "$usage" -u -u t
ended 'two times' 100 "$usage" -t 1 -u -t 1 t
ended 'an unknown letter' 100 "$usage" -y t
ended 'letters together' 100 "$usage" -ud t
ended 'an option behind a service is one' 102 'wait: -d: supervise not running
wait: -d: No such file or directory' t -d
usage='dtools: usage
dtools restart [-t SECONDS] SERVICE..; sends TERM, and returns once another process is up'
restarted 'restart: no words' 100 "$usage"
restarted 'restart: no service' 100 "$usage" -t 1
restarted 'restart: no service behind --' 100 "$usage" --
restarted 'restart: words for seconds' 100 "$usage" -t t t
restarted 'restart: an option of wait' 100 "$usage" -u t
restarted 'restart: two times' 100 "$usage" -t 1 -t 1 t
restarted 'restart: a name that is no text' 102 'restart: \xff: supervise not running
restart: \xff: Invalid argument' $'\xff' 2>/dev/null
# A name that is no text is that of no service. The shell drops the zero byte at its end.
ended 'a name that is no text' 102 'wait: \xff: supervise not running
wait: \xff: Invalid argument' $'\xff' 2>/dev/null
ended 'an option that is no text' 100 'wait: -\xff: no text' $'-\xff' t

# A real svscan, and services that are brought up and down. The folder is renamed once it is whole.
mkdir -p made/web made/db
printf '#!/bin/sh\nexec sleep 1000\n' >made/web/run
printf '#!/bin/sh\nexec sleep 1000\n' >made/db/run
: >made/db/down
chmod 755 made/*/run
mv made services
set -m
"$program" svscan services </dev/null >svscan.out 2>&1 &
svscan=$!
disown
set +m
has_status() { [ -s "$1/supervise/status" ] && timeout 10 "$program" svok "$1"; }
until_true has_status services/web
until_true has_status services/db
ended 'web comes up' 0 '' -t 100 services/web
is 'web comes up: it is settled' yes "$("$program" svstat services/web | grep -q 'up (pid [0-9]*) [0-9]* seconds$' && echo yes)"
ended 'db is down' 0 '' -d services/db
begun 'db comes up' services/web services/db
"$program" svc -u services/db
over 'db comes up' 0 ''
ended 'both are up' 0 '' -t 0 services/web services/db
begun 'both go down' -d services/web services/db
"$program" svc -d services/web services/db
over 'both go down' 0 ''
is 'both go down: svstat' 'services/web: down services/db: down' "$("$program" svstat services/web services/db | sed 's/ [0-9]* seconds.*//' | xargs)"
ended 'both are down' 0 '' -t 0 -d services/web services/db
ended 'both are up: not so' 99 'wait: services/web: not up in time
wait: services/db: not up in time' -t 0 services/web services/db

# Restarts: web ends at once at TERM, and slow once there is a file `go`. After `svc -t`, `wait -u` finds the old process.
process() { "$program" svstat "$1" | sed -n 's/.*(pid \([0-9]*\)).*/\1/p'; }
mkdir -p made/slow
printf '#!/bin/sh\ntrap "until [ -e go ]; do sleep 0.1; done; exit 0" TERM\nwhile :; do sleep 0.1; done\n' >made/slow/run
chmod 755 made/slow/run
mv made/slow services
ended 'slow comes up' 0 '' -t 100 services/slow
"$program" svc -u services/web
ended 'web comes up again' 0 '' -t 100 services/web
slow=$(process services/slow) web=$(process services/web)
"$program" svc -t services/slow
ended 'a TERM, and then -u' 0 '' -u -t 100 services/slow
is 'a TERM, and then -u: the old process' "$slow" "$(process services/slow)"
begun 'a TERM, and then -r' -r services/slow
: >services/slow/go
over 'a TERM, and then -r' 0 ''
is 'a TERM, and then -r: another process' no "$([ "$(process services/slow)" != "$slow" ] && echo no)"
slow=$(process services/slow)
rm services/slow/go
restarted 'slow, in too short a time' 99 'restart: services/slow: not restarted in time' -t 1 services/slow
is 'slow, in too short a time: the old process' "$slow" "$(process services/slow)"
begun 'slow, in too short a time: later' -r services/slow
: >services/slow/go
over 'slow, in too short a time: later' 0 ''
slow=$(process services/slow)
restarted 'a service that is down is the last one' 100 'restart: services/db: not wanted up' services/web services/slow services/db
restarted 'a service that is not there is the last one' 102 'restart: services/nosuch: supervise not running
restart: services/nosuch: No such file or directory' services/web services/slow services/nosuch
sleep 4
is 'nothing was sent' "$web $slow" "$(process services/web) $(process services/slow)"
restarted 'both' 0 '' services/web services/slow
is 'both: other processes' 'no no' "$([ "$(process services/web)" != "$web" ] && echo no) $([ "$(process services/slow)" != "$slow" ] && echo no)"
slow=$(process services/slow)
restarted 'one of two' 0 '' -t 100 services/web
is 'one of two: the other one runs on' "$slow" "$(process services/slow)"
begun 'it is restarted by svc' -r services/web
"$program" svc -t services/web
over 'it is restarted by svc' 0 ''
ended 'nobody restarts it' 99 'wait: services/web: not restarted in time' -r -t 3 services/web
"$program" svc -d services/web services/slow
ended 'web and slow go down again' 0 '' -d -t 100 services/web services/slow

# A service that ends at once, or within two seconds, and is started again and again, is never up: svwait -u returned 0 for
# it, since for a moment before each death is taken the record says up. Each is looked at for six seconds. On a machine that stands
# still meanwhile the second one does live for two seconds.
mkdir -p made/loop made/slower
printf '#!/bin/sh\nexit 1\n' >made/loop/run
printf '#!/bin/sh\nexec sleep 1.3\n' >made/slower/run
chmod 755 made/loop/run made/slower/run
mv made/loop made/slower services
until_true has_status services/loop
until_true has_status services/slower
look() { timeout -k 1 300 "$program" wait -u -t 6 services/loop services/slower >out 2>reported </dev/null; }
for turn in 1 2 3; do
  undisturbed look
  is "a crash loop, $turn: status" 99 "$?"
  is "a crash loop, $turn: reported" 'wait: services/loop: not up in time
wait: services/slower: not up in time' "$(cat reported)"
  is "a crash loop, $turn: printed" '' "$(cat out)"
done
"$program" svc -d services/loop services/slower
ended 'a crash loop goes down' 0 '' -d -t 100 services/loop services/slower

# They end, and come again.
mv services/web services/db .
begun 'web ends' -x web db
"$program" svc -dx web db
over 'web ends' 0 ''
ended 'web ends: -u' 102 'wait: web: supervise not running' web
mv web db services
ended 'web comes again: at once' 0 '' -t 100 services/web
begun 'svscan is killed' -d services/web
kill -KILL "$svscan"
over 'svscan is killed' 102 'wait: services/web: supervise not running'
kill_group "$svscan"
kill -KILL "$(od -An -tu4 -j12 -N4 --endian=little services/web/supervise/status | tr -d ' ')" 2>/dev/null
counts wait

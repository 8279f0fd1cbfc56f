#!/usr/bin/env bash
# What no contract can say of svc, svstat and svok: that the system's own sockets and files are what the program takes
# them for. Runs the program that the first word names against real sockets, prints each check that fails, and ends with
# how many did not. The wanted values are those of the daemontools pages and of docs/FORMATS.md. It needs python3, for
# sockets to listen at.
# gate: 30 seconds, needs python3
. "$(dirname "$0")/checks.sh" "$1"
trap leave EXIT

# ended NAME STATUS PRINTED REPORTED COMMAND WORDS..
ended() {
  local name=$1 status=$2 printed=$3 reported=$4
  shift 4
  timeout 60 "$program" "$@" >out 2>reported </dev/null
  is "$name: status" "$status" "$?"
  is "$name: printed" "$printed" "$(cat out)"
  is "$name: reported" "$reported" "$(cat reported)"
}

# A listener in a folder: it binds sockets below supervise there, and writes what each connection brings as a line of the
# file `heard`: folder, socket, a space, the bytes.
cat >listener.py <<'END'
import os, selectors, socket, sys
heard = open(sys.argv[1], "ab", 0)
os.chdir(sys.argv[2])
choice = selectors.DefaultSelector()
for name in sys.argv[3:]:
    door = socket.socket(socket.AF_UNIX)
    door.bind("supervise/" + name)
    door.listen(16)
    choice.register(door, selectors.EVENT_READ, name)
open("supervise/listens", "w").close()
while True:
    for key, _ in choice.select():
        stream, _ = key.fileobj.accept()
        stream.settimeout(60)
        bytes = b""
        while piece := stream.recv(4096):
            bytes += piece
        heard.write(f"{sys.argv[2]}/{key.data} ".encode() + bytes + b"\n")
END

# listen FOLDER SOCKETS..: starts a listener, and waits until it listens.
listen() {
  local folder=$1
  mkdir -p "$folder/supervise"
  python3 listener.py heard "$@" &
  listeners+=($!)
  for _ in $(seq 1500); do [ -e "$folder/supervise/listens" ] && return; sleep 0.02; done
  echo "svc: nobody listens in $folder"
  exit 1
}

# arrived NAME LINES..: what the listeners heard since, once so many lines are there. Those of two listeners may come in
# any order.
arrived() {
  local name=$1
  shift
  for _ in $(seq 1500); do [ "$(wc -l <heard)" -ge $# ] && break; sleep 0.02; done
  is "$name" "$(printf '%s\n' "$@" | sort)" "$(sort heard)"
  : >heard
}

# bytes DIGITS: the bytes of these hexadecimal digits
bytes() {
  printf "$(printf '%s' "$1" | sed 's/../\\x&/g')"
}

: >heard
listen s control ok
listen ./-x control ok
mkdir -p dead/supervise none empty/supervise
python3 -c 'import socket; s = socket.socket(socket.AF_UNIX); s.bind("dead/supervise/control")'
python3 -c 'import socket; s = socket.socket(socket.AF_UNIX); s.bind("dead/supervise/ok")'
long=$(printf 'n%.0s' $(seq 200))
listen "$long" control ok

# svc: which bytes arrive, in which order.
ended 'one letter' 0 '' '' svc -d s
arrived 'one letter' 's/control d'
ended 'letters' 0 '' '' svc -du -t -- s
arrived 'letters' 's/control dut'
ended 'two services, one with a dash' 0 '' '' svc -du -t -- -x s
arrived 'two services, one with a dash' './-x/control dut' 's/control dut'
ended 'a letter twice' 0 '' '' svc -uu s
arrived 'a letter twice' 's/control u'
ended 'all letters' 0 '' '' svc -udopchaitkx12q s
arrived 'all letters' 's/control udopchaitkx12q'
ended 'digits are letters' 0 '' '' svc -1q2 -q s
arrived 'digits are letters' 's/control 1q2'
ended 'a service twice' 0 '' '' svc -h s s
arrived 'a service twice' 's/control h' 's/control h'
ended 'no letter' 0 '' 'svc: warning: unable to control nosuch: not running
svc: nosuch: No such file or directory' svc s nosuch
arrived 'no letter' 's/control '
ended 'the dash is forgotten' 0 '' 'svc: warning: unable to control u: not running
svc: u: No such file or directory' svc u s
arrived 'the dash is forgotten' 's/control '
ended 'a lone dash is a service' 0 '' 'svc: warning: unable to control -: not running
svc: -: No such file or directory' svc -d - s
arrived 'a lone dash' 's/control d'

# svc: a letter that is unknown, and nobody hears anything.
ended 'an unknown letter' 100 '' 'svc: unknown letter 7a' svc -uz s
ended 'the first unknown letter' 100 '' 'svc: unknown letter 2d' svc -d --zx s
ended 'a letter beyond ASCII' 100 '' 'svc: unknown letter c3' svc -$'\xc3\xa9' s
ended 'an unknown letter, no service' 100 '' 'svc: unknown letter 7a' svc -z
ended 'an option that is no text' 100 '' 'svc: -\xff: no text' svc $'-\xff' s
is 'refused: nothing was sent' '' "$(cat heard)"
# A name that is no text is that of no service, and the others are served. The shell drops the zero byte at its end.
ln -s s 'bad\xff'
ended 'a name that is no text' 0 '' 'svc: warning: unable to control bad\xff: not running
svc: bad\xff: Invalid argument' svc -d $'bad\xff' s 2>/dev/null
arrived 'a name that is no text' 's/control d'
rm 'bad\xff'
ended 'no words' 0 '' '' svc
ended 'no service' 0 '' '' svc -d

# svc: services that can't be reached are reported, and the others are served.
warning='svc: warning: unable to control'
ended 'others are served' 0 '' "$warning nosuch: not running
$warning none: not running
$warning empty: not running
$warning dead: not running
$warning listener.py: not running
svc: nosuch: No such file or directory
svc: listener.py: Not a directory" svc -u nosuch s none empty dead listener.py -x
arrived 'others are served' 's/control u' './-x/control u'
ended 'a long path' 0 '' '' svc -t "$long"
arrived 'a long path' "$long/control t"
ended 'a longer path' 0 '' '' svc -t "$room/$long"
arrived 'a longer path' "$long/control t"
far=$(printf '/%.0s' $(seq 5000))
ended 'a path beyond all' 0 '' "$warning $far: not running
svc: $far: File name too long" svc -t "$far"
ended 'a slash behind' 0 '' '' svc -t s/
arrived 'a slash behind' 's/control t'

# svc -W: the same is sent and reported, and the status says whether each was reached.
ended '-W: each was reached' 0 '' '' svc -W -d s -x
arrived '-W: each was reached' 's/control d' './-x/control d'
ended '-W: one was not' 111 '' "$warning nosuch: not running
svc: nosuch: No such file or directory" svc -W -u nosuch s
arrived '-W: one was not' 's/control u'
ended '-W: not the last' 111 '' "$warning nosuch: not running
svc: nosuch: No such file or directory" svc -W -u s nosuch
arrived '-W: not the last' 's/control u'
ended '-W: two were not' 111 '' "$warning nosuch: not running
$warning dead: not running
svc: nosuch: No such file or directory" svc -W -du -t -- nosuch s dead -x
arrived '-W: two were not' 's/control dut' './-x/control dut'
ended '-W: no letter' 111 '' "$warning nosuch: not running
svc: nosuch: No such file or directory" svc -W s nosuch
arrived '-W: no letter' 's/control '
ended '-W: no service' 0 '' '' svc -W -d
ended '-W: no words' 0 '' '' svc -W
ended '-W: an unknown letter' 100 '' 'svc: unknown letter 7a' svc -W -uz s nosuch
ended '-W behind a letter' 100 '' 'svc: unknown letter 57' svc -u -W s
ended '-W twice' 100 '' 'svc: unknown letter 57' svc -W -W s
ended '-W with a letter' 100 '' 'svc: unknown letter 57' svc -Wu s
ended '-W behind --' 0 '' "$warning -W: not running
svc: -W: No such file or directory" svc -d -- -W
ended '-- behind -W' 0 '' '' svc -W -t -- s
arrived '-- behind -W' 's/control t'
ended 'a slash behind again' 0 '' '' svc -t s/
arrived 'a slash behind' 's/control t'

# Sockets whose queue is full: nobody waits for ever.
mkdir -p full/supervise
python3 - <<'END' &
import socket, time
held = []
for name in ("control", "ok"):
    door = socket.socket(socket.AF_UNIX)
    door.bind("full/supervise/" + name)
    door.listen(0)
    first = socket.socket(socket.AF_UNIX)
    first.connect("full/supervise/" + name)
    held += [door, first]
open("full/supervise/listens", "w").close()
time.sleep(600)
END
listeners+=($!)
for _ in $(seq 1500); do [ -e full/supervise/listens ] && break; sleep 0.02; done
ended 'a full queue' 0 '' "$warning full: no answer" svc -t full
ended 'a full queue: -W' 111 '' "$warning full: no answer" svc -W -t full
ended 'a full queue: svstat' 0 'full: unable to open supervise/ok: no answer' '' svstat full
ended 'a full queue: svok' 100 '' '' svok full

# Another user may not look into the folder.
if [ "$(id -u)" = 0 ] && command -v setpriv >/dev/null; then
  cp "$program" own
  chmod 711 "$room" own
  chmod 700 s/supervise
  root_program=$program
  program=$room/as_other
  printf '#!/bin/sh\nexec setpriv --reuid 65534 --regid 65534 --clear-groups %s "$@"\n' "$room/own" >as_other
  chmod 755 as_other
  ended 'another user: svstat' 0 's: unable to open supervise/ok: Permission denied' '' svstat s
  ended 'another user: svc' 0 '' "$warning s: Permission denied" svc -t s
  ended 'another user: svc -W' 111 '' "$warning s: Permission denied" svc -W -t s
  ended 'another user: svok' 100 '' '' svok s
  program=$root_program
fi

# svok: silent.
ended 'supervised' 0 '' '' svok s
ended 'supervised: a long path' 0 '' '' svok "$room/$long"
ln -s s 'bad\xff'
ended 'a name that is no text' 100 '' '' svok $'bad\xff'
ended 'the name that it is shown as' 0 '' '' svok 'bad\xff'
rm 'bad\xff'
ended 'no such folder' 100 '' '' svok nosuch
ended 'no socket' 100 '' '' svok empty
ended 'a dead socket' 100 '' '' svok dead
# The socket that it asks is ok: somebody at control alone is no supervisor.
listen half control
ended 'control alone' 100 '' '' svok half
is 'control is not asked' '' "$(grep half heard)"
ended 'no folder' 100 '' '' svok
ended 'two folders' 100 '' '' svok s s
: >heard

# svstat: records that are written here. The label is that of the first second of 2001, 978307200 of Unix; so the seconds
# since are those of the clock.
label=400000003a4fc88a00000000
since=978307200
stat() {
  local name=$1 hex=$2 line=$3
  bytes "$hex" >s/supervise/status
  local before after
  before=$(date +%s)
  timeout 60 "$program" svstat s >out 2>reported </dev/null
  is "$name: status" 0 "$?"
  after=$(date +%s)
  is "$name: reported" '' "$(cat reported)"
  local found=no second
  for second in $(seq "$before" "$after"); do
    [ "$(cat out)" = "${line/SECONDS_SINCE/$((second - since))}" ] && found=yes
  done
  is "$name: $(cat out)" yes "$found"
}
stat 'up' "${label}671200000075" 's: up (pid 4711) SECONDS_SINCE seconds'
stat 'paused' "${label}671200000164" 's: up (pid 4711) SECONDS_SINCE seconds, paused, want down'
stat 'down' "${label}000000000064" 's: down SECONDS_SINCE seconds, normally up'
stat 'once' "${label}000000000000" 's: down SECONDS_SINCE seconds, normally up'
stat 'want up' "${label}000000000075" 's: down SECONDS_SINCE seconds, normally up, want up'
: >s/down
stat 'up: down file' "${label}671200000075" 's: up (pid 4711) SECONDS_SINCE seconds, normally down'
stat 'paused: down file' "${label}671200000164" \
  's: up (pid 4711) SECONDS_SINCE seconds, normally down, paused, want down'
stat 'down: down file' "${label}000000000064" 's: down SECONDS_SINCE seconds'
rm s/down
stat 'in the future' 7fffffffffffffff00000000671200000075 's: up (pid 4711) 0 seconds'
# Records of 20 bytes have a phase and whether supervise is to end.
stat 'starting' "${label}0000000000750000" 's: down SECONDS_SINCE seconds, normally up, want up, starting'
stat 'settling' "${label}6712000000750001" 's: up (pid 4711) SECONDS_SINCE seconds, settling'
stat 'resting' "${label}0000000000750002" 's: down SECONDS_SINCE seconds, normally up, want up, resting'
stat 'phase up' "${label}6712000000750003" 's: up (pid 4711) SECONDS_SINCE seconds'
stat 'phase up, paused' "${label}6712000001640003" 's: up (pid 4711) SECONDS_SINCE seconds, paused, want down'
stat 'phase up, exiting' "${label}6712000001640103" 's: up (pid 4711) SECONDS_SINCE seconds, paused, want down, exiting'
stat 'phase down' "${label}0000000000640004" 's: down SECONDS_SINCE seconds, normally up'
stat 'phase down, once' "${label}0000000000000004" 's: down SECONDS_SINCE seconds, normally up'
stat 'gone' "${label}0000000000640105" 's: down SECONDS_SINCE seconds, normally up, gone, exiting'
: >s/down
stat 'starting: down file' "${label}0000000000750000" 's: down SECONDS_SINCE seconds, want up, starting'
stat 'settling: down file' "${label}6712000000750001" 's: up (pid 4711) SECONDS_SINCE seconds, normally down, settling'
stat 'phase up, exiting: down file' "${label}6712000001640103" \
  's: up (pid 4711) SECONDS_SINCE seconds, normally down, paused, want down, exiting'
rm s/down
for row in "Length|" "Length|${label}6712000000" "Length|${label}67120000007500" "Length|$(printf '41%.0s' $(seq 300))" \
  "BadLabel|400000003a4fc88a3b9aca00671200000075" "PausedFlag|${label}671200000275" \
  "PausedNoProcess|${label}000000000175" "WantByte|${label}671200000078" \
  "Length|${label}671200000075000300" "BadLabel|400000003a4fc88a3b9aca006712000000750003" \
  "PausedNoProcess|${label}0000000001750302" "WantByte|${label}6712000000780206" "ExitingFlag|${label}6712000000750206" \
  "PhaseNumber|${label}6712000000750006" "NoSuchState|${label}6712000000750004" "NoSuchState|${label}6712000001750001" \
  "NoSuchState|${label}0000000000750101"; do
  IFS='|' read -r kind hex <<<"$row"
  stat "a bad record: $kind" "$hex" "s: bad status record: $kind"
done
rm s/supervise/status
ended 'no status' 0 's: unable to read status' '' svstat s
mkfifo s/supervise/status
ended 'a status that is a pipe' 0 's: unable to read status' '' svstat s
rm s/supervise/status
mkdir s/supervise/status
ended 'a status that is a folder' 0 's: unable to read status' '' svstat s
rmdir s/supervise/status
ended 'not supervised' 0 'nosuch: supervise not running
dead: supervise not running' 'svstat: nosuch: No such file or directory' svstat nosuch dead
ended 'a file in place of a folder' 0 'listener.py: supervise not running' 'svstat: listener.py: Not a directory' svstat listener.py
bytes "${label}671200000078" >"$long/supervise/status"
ended 'in order' 0 "nosuch: supervise not running
$long: bad status record: WantByte
s: unable to read status
nosuch: supervise not running" 'svstat: nosuch: No such file or directory
svstat: nosuch: No such file or directory' svstat nosuch "$long" s nosuch
# Control characters of a name: a line stays one line, and a terminal stays as it is.
mkdir $'two\nlines' $'\e[31mred\x7f' 'back\slash' 'grün'
ended 'a newline in a name' 0 'two\x0alines: supervise not running' '' svstat $'two\nlines'
ended 'an escape in a name' 0 '\x1b[31mred\x7f: supervise not running' '' svstat $'\e[31mred\x7f'
ended 'no control character in a name' 0 'back\slash: supervise not running
grün: supervise not running' '' svstat 'back\slash' 'grün'
ended 'a word with a dash' 0 '-x: unable to read status' '' svstat -x
ended 'a name that is no text' 0 'bad\xff\x00: supervise not running
s: unable to read status' 'svstat: bad\xff: Invalid argument' svstat $'bad\xff' s 2>/dev/null
ended 'svstat without words' 0 '' '' svstat
timeout 60 "$program" svstat nosuch >/dev/full 2>reported </dev/null
is 'a full device: status' 111 "$?"
is 'a full device: reported' 'svstat: write fault: No space left on device' "$(cat reported)"

counts svc

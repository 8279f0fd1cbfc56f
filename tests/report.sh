#!/usr/bin/env bash
# What `svstat --json` and `svstat --metrics` write, over folders that are made here: status records of given bytes, files of
# counts, names of any bytes, sockets at which python3 listens, and a service that a real svscan keeps. Runs the program that
# the first word names. python3's own reader reads the lines of JSON, and a small one here the metrics, next to promtool if
# that is installed; what they must then hold is written down from docs/FORMATS.md.
# gate: 15 seconds, needs python3
. "$(dirname "$0")/checks.sh" "$1"
trap leave EXIT

# members FIRST LAST FOLDERS..: of each line that comes the members in their order, the first being the folder's path. The
# seconds since the first second of 2001 are S, if the clock was between these two.
cat >members.py <<'END'
import json, sys
first, last, folders = int(sys.argv[1]), int(sys.argv[2]), sys.argv[3:]
text = sys.stdin.buffer.read()
assert text.endswith(b"\n") or not folders, "the last line has no newline"
lines = text.split(b"\n")[:-1]
assert len(lines) == len(folders), f"{len(lines)} lines for {len(folders)} folders"
for line, folder in zip(lines, folders):
    members = json.loads(line.decode("utf-8"), object_pairs_hook=list)
    assert members[0] == ("path", folder), members[0]
    said = []
    for name, value in members[1:]:
        if name == "seconds" and type(value) is int and first <= value + 978307200 <= last:
            value = "S"
        said.append(f"{name}={json.dumps(value)}")
    print(" ".join(said))
END

# object NAME WANTED FOLDERS..: what is said of the folders, a line each, with status 0 and nothing reported
object() {
  local name=$1 wanted=$2 before status
  shift 2
  before=$(date +%s)
  timeout 120 "$program" svstat --json "$@" >out 2>reported </dev/null
  status=$?
  is "$name: status" 0 "$status"
  is "$name: reported" "${missing-}" "$(cat reported)"
  is "$name" "$wanted" "$(python3 members.py "$before" "$(date +%s)" "$@" <out 2>&1)"
}

# record NAME DIGITS WANTED: what is said of s if its status has these bytes
label=400000003a4fc88a00000000
record() {
  bytes "$2" >s/supervise/status
  object "$1" "$3" s
}

# standing NAME DIGITS WANTED: the same of a record that changed in the first second of 2001, without counts and a last end
past='since=978307200 starts=null deaths=null last=null'
standing() { record "$1" "$2" "$3 $past"; }

listen s
standing 'up' "${label}671200000075" \
  'up=true pid=4711 seconds="S" phase=null want="up" paused=false normally="up" exiting=null ready=null finishing=false backoff=null'
standing 'paused, wanted down' "${label}671200000164" \
  'up=true pid=4711 seconds="S" phase=null want="down" paused=true normally="up" exiting=null ready=null finishing=false backoff=null'
standing 'down' "${label}000000000064" \
  'up=false pid=null seconds="S" phase=null want="down" paused=false normally="up" exiting=null ready=null finishing=false backoff=null'
standing 'down, once' "${label}000000000000" \
  'up=false pid=null seconds="S" phase=null want="once" paused=false normally="up" exiting=null ready=null finishing=false backoff=null'
standing 'the greatest process number' "${label}ffffffff0075" \
  'up=true pid=4294967295 seconds="S" phase=null want="up" paused=false normally="up" exiting=null ready=null finishing=false backoff=null'
record 'in the future' 7fffffffffffffff00000000671200000075 \
  'up=true pid=4711 seconds=0 phase=null want="up" paused=false normally="up" exiting=null ready=null finishing=false backoff=null since=4611686018427387893 starts=null deaths=null last=null'
standing 'starting' "${label}0000000000750000" \
  'up=false pid=null seconds="S" phase="starting" want="up" paused=false normally="up" exiting=false ready=null finishing=false backoff=null'
standing 'settling' "${label}6712000000750001" \
  'up=true pid=4711 seconds="S" phase="settling" want="up" paused=false normally="up" exiting=false ready=null finishing=false backoff=null'
standing 'resting' "${label}0000000000750002" \
  'up=false pid=null seconds="S" phase="resting" want="up" paused=false normally="up" exiting=false ready=null finishing=false backoff=null'
standing 'phase up, exiting' "${label}6712000001640103" \
  'up=true pid=4711 seconds="S" phase="up" want="down" paused=true normally="up" exiting=true ready=null finishing=false backoff=null'
: >s/down
standing 'phase down, a file down' "${label}0000000000640004" \
  'up=false pid=null seconds="S" phase="down" want="down" paused=false normally="down" exiting=false ready=null finishing=false backoff=null'
rm s/down
standing 'gone' "${label}0000000000640105" \
  'up=false pid=null seconds="S" phase="gone" want="down" paused=false normally="up" exiting=true ready=null finishing=false backoff=null'
# What a service does that its status does not say. The file exit says that its process has ended: then it finishes, if it has a
# finish, or its next start waits, if the file backoff says so. Until it has ended, the file ready says whether it is ready. A file
# counts if its process is that of the record, and its time is not before the start of that.
earlier=@400000003a4fc88900000000 later=@400000003a4fc88b00000000 until=@400000003a4fc8c600000000
digits="${label}6712000000750003"
# course NAME WANTED [LAST]: what is said of s with these files
course() {
  record "$1" "$digits" "up=true pid=4711 seconds=\"S\" phase=\"up\" want=\"up\" paused=false normally=\"up\" exiting=false $2 \
since=978307200 starts=null deaths=null last=${3-null}"
}
# sample METRIC: its value for s; and the line of svstat, without its numbers of seconds
sample() { "$program" svstat --metrics s | sed -n "s/^dtools_service_$1{service=\"s\"} //p"; }
line() { "$program" svstat s | sed -E 's/[0-9]+ seconds/N seconds/g'; }
end() { printf '[["pid", %s], ["status", 0], ["signal", null], ["at", %s]]' "$1" "$2"; }
: >s/finish
course 'a finish, and nothing says that its process has ended' 'ready=null finishing=false backoff=null'
echo "4711 status 0 $later" >s/supervise/exit
course 'its process has ended, and it has a finish' 'ready=null finishing=true backoff=null' "$(end 4711 978307201)"
is 'finishing: svstat' 's: up (pid 4711) N seconds, finishing' "$(line)"
is 'finishing: metrics' '0 1 0' "$(echo $(sample ready) $(sample finishing) $(sample backing_off))"
echo "4711 $later" >s/supervise/ready
course 'a process that has ended is not ready' 'ready=null finishing=true backoff=null' "$(end 4711 978307201)"
echo "4711 $until" >s/supervise/backoff
course 'its next start waits' 'ready=null finishing=false backoff=978307260' "$(end 4711 978307201)"
is 'backoff: svstat' 's: up (pid 4711) N seconds, backoff N seconds' "$(line)"
is 'backoff: metrics' '0 0 1' "$(echo $(sample ready) $(sample finishing) $(sample backing_off))"
echo "4710 $until" >s/supervise/backoff
course 'a wait after another process' 'ready=null finishing=true backoff=null' "$(end 4711 978307201)"
rm s/finish s/supervise/backoff
course 'without a finish' 'ready=null finishing=false backoff=null' "$(end 4711 978307201)"
echo "4710 status 0 $later" >s/supervise/exit
course 'another process has ended, and this one is ready' 'ready=978307201 finishing=false backoff=null' "$(end 4710 978307201)"
is 'ready: svstat' 's: up (pid 4711) N seconds, ready N seconds' "$(line)"
is 'ready: metrics' '1 0 0' "$(echo $(sample ready) $(sample finishing) $(sample backing_off))"
echo "4711 status 0 $earlier" >s/supervise/exit
course 'one with its number ended before it began' 'ready=978307201 finishing=false backoff=null' "$(end 4711 978307199)"
rm s/supervise/exit
for row in "4710 $later" "4711 $earlier" "4711  " "47110 $later" "04711 $later" "4711 ${later}0" "4711 ${later#@}" "x $later" ''; do
  echo "$row" >s/supervise/ready
  course "ready: $row" 'ready=null finishing=false backoff=null'
done
printf '4711 %s' "$later" >s/supervise/ready
course 'ready: no newline' 'ready=null finishing=false backoff=null'
rm s/supervise/ready
mkfifo s/supervise/ready s/supervise/exit s/supervise/backoff
course 'pipes' 'ready=null finishing=false backoff=null'
rm s/supervise/ready s/supervise/exit s/supervise/backoff
echo "0 $later" >s/supervise/ready
standing 'no process, and a word of none' "${label}0000000000640004" \
  'up=false pid=null seconds="S" phase="down" want="down" paused=false normally="up" exiting=false ready=null finishing=false backoff=null'
rm s/supervise/ready

# Since when, its counts, and how its last process ended: the lines of counts and exit that docs/FORMATS.md has.
up='up=true pid=4711 seconds="S" phase=null want="up" paused=false normally="up" exiting=null ready=null finishing=false backoff=null since=978307200'
printf '7 6\n' >s/supervise/counts
record 'counts' "${label}671200000075" "$up starts=7 deaths=6 last=null"
for row in '4710 status 0|{"pid": 4710, "status": 0, "signal": null, "at": 978307201}' \
  '4294967295 status 255|{"pid": 4294967295, "status": 255, "signal": null, "at": 978307201}' \
  '4710 signal TERM|{"pid": 4710, "status": null, "signal": 15, "at": 978307201}' \
  '4710 signal SEGV|{"pid": 4710, "status": null, "signal": 11, "at": 978307201}' \
  '4710 signal 64|{"pid": 4710, "status": null, "signal": 64, "at": 978307201}' \
  '4710 unknown|{"pid": 4710, "status": null, "signal": null, "at": 978307201}' \
  '4710 status 256|null' '4710 status -1|null' '4710 signal 15|null' '4710 signal term|null' 'x status 0|null' '|null'; do
  IFS='|' read -r words wanted <<<"$row"
  printf '%s @400000003a4fc88b00000000\n' "$words" >s/supervise/exit
  object "last: $words" "$up starts=7 deaths=6 last=$(python3 -c '
import json, sys
print(json.dumps(json.loads(sys.argv[1], object_pairs_hook=list)))' "$wanted")" s
done
rm s/supervise/exit s/supervise/counts
mkfifo s/supervise/exit
object 'last: a pipe' "$up starts=null deaths=null last=null" s
rm s/supervise/exit

# What can't be looked at: the words of svstat's own line.
for row in "Length|" "Length|${label}67120000007500" "BadLabel|400000003a4fc88a3b9aca00671200000075" \
  "PausedFlag|${label}671200000275" "PausedNoProcess|${label}000000000175" "WantByte|${label}671200000078" \
  "ExitingFlag|${label}6712000000750206" "PhaseNumber|${label}6712000000750006" "NoSuchState|${label}6712000000750004"; do
  IFS='|' read -r kind digits <<<"$row"
  record "a bad record: $kind" "$digits" "error=\"bad status record: $kind\""
  is "a bad record: $kind: svstat" "s: bad status record: $kind" "$("$program" svstat s)"
done
rm s/supervise/status
object 'no status' 'error="unable to read status"' s
# What is reported of folders that are not there.
lacks() { printf 'svstat: %s: No such file or directory\n' "$@"; }
missing=$(lacks nosuch) object 'nobody there' 'up=false error="supervise not running"' nosuch
if [ "$(id -u)" = 0 ] && command -v setpriv >/dev/null; then
  cp "$program" own
  chmod 711 "$room" own
  chmod 700 s/supervise
  is 'another user' '{"path":"s","error":"unable to open supervise/ok: Permission denied"}' \
    "$(setpriv --reuid 65534 --regid 65534 --clear-groups "$room/own" svstat --json s)"
fi

# samples FIRST LAST FOLDERS..: the samples that come, each as its metric, the folder's place and its value, with seconds as
# above. It reads the text by its own rules: help and type once, before the samples of their metric, which come together.
cat >samples.py <<'END'
import re, sys
first, last, folders = int(sys.argv[1]), int(sys.argv[2]), sys.argv[3:]
text = sys.stdin.buffer.read().decode("utf-8")
assert text.endswith("\n")
value_of = {"\\\\": "\\", '\\"': '"', "\\n": "\n"}
label = r'([a-z]+)="((?:[^"\\\n]|\\\\|\\"|\\n)*)"'
helped, typed, now = [], [], None
for line in text.split("\n")[:-1]:
    if line.startswith("# HELP "):
        now = line.split(" ")[2]
        assert now not in helped and len(line.split(" ")) > 3, line
        helped.append(now)
        continue
    if line.startswith("# TYPE "):
        kind = "counter" if now.endswith("_total") else "gauge"
        assert line == f"# TYPE {now} {kind}" and now not in typed, line
        typed.append(now)
        continue
    parts = re.fullmatch(r"([a-z_]+)\{(" + label + r"(?:," + label + r")*)\} ([0-9]+)", line)
    assert parts and parts[1] == now and now in typed, line
    labels = {n: re.sub(r'\\\\|\\"|\\n', lambda m: value_of[m[0]], v) for n, v in re.findall(label, parts[2])}
    service, value = labels.pop("service"), parts[7]
    if now == "dtools_service_seconds" and first <= int(value) + 978307200 <= last:
        value = "S"
    extra = "".join(f"[{v}]" for v in labels.values())
    print(f"{now.removeprefix('dtools_service_')}{extra} {folders.index(service)} {value}")
END

# metrics NAME WANTED FOLDERS..: the samples of these folders, with status 0 and nothing reported
metrics() {
  local name=$1 wanted=$2 before status
  shift 2
  before=$(date +%s)
  timeout 120 "$program" svstat --metrics "$@" >out 2>reported </dev/null
  status=$?
  is "$name: status" 0 "$status"
  is "$name: reported" "${missing-}" "$(cat reported)"
  is "$name" "$wanted" "$(python3 samples.py "$before" "$(date +%s)" "$@" <out 2>&1)"
  if command -v promtool >/dev/null; then
    is "$name: promtool" '' "$(promtool check metrics <out 2>&1 || echo "status $?")"
  fi
}

# phases NAME: the samples of a service's phase, if it is in this one
phases() {
  local phase
  for phase in starting settling up down resting gone; do echo "phase[$phase] 0 $([ "$phase" = "$1" ] && echo 1 || echo 0)"; done
}

# measured NAME DIGITS UP PHASE WANTED PAUSED SECONDS [SINCE]: the samples of s if its status has these bytes
measured() {
  bytes "$2" >s/supervise/status
  metrics "metrics: $1" "supervised 0 1
up 0 $3
seconds 0 $7
since_timestamp_seconds 0 ${8-978307200}
${4:+$(phases "$4")
}wanted_up 0 $5
paused 0 $6
ready 0 0
finishing 0 0
backing_off 0 0" s
}
chmod 755 s/supervise
measured 'up' "${label}671200000075" 1 '' 1 0 S
measured 'paused, wanted down' "${label}671200000164" 1 '' 0 1 S
measured 'once' "${label}000000000000" 0 '' 0 0 S
measured 'in the future' 7fffffffffffffff00000000671200000075 1 '' 1 0 0 4611686018427387893
measured 'starting' "${label}0000000000750000" 0 starting 1 0 S
measured 'settling' "${label}6712000000750001" 1 settling 1 0 S
measured 'resting' "${label}0000000000750002" 0 resting 1 0 S
measured 'phase up' "${label}6712000001640103" 1 up 0 1 S
measured 'phase down' "${label}0000000000640004" 0 down 0 0 S
measured 'gone' "${label}0000000000640105" 0 gone 0 0 S
bytes "${label}671200000078" >s/supervise/status
metrics 'metrics: a bad record' 'supervised 0 1' s
rm s/supervise/status
metrics 'metrics: no status' 'supervised 0 1' s
missing=$(lacks nosuch) metrics 'metrics: nobody there' 'supervised 0 0' nosuch
missing=$(lacks nosuch) metrics 'metrics: two' "supervised 0 1
supervised 1 0" s nosuch

# Counts.
bytes "${label}671200000075" >s/supervise/status
some='supervised 0 1
up 0 1
seconds 0 S
since_timestamp_seconds 0 978307200
wanted_up 0 1
paused 0 0
ready 0 0
finishing 0 0
backing_off 0 0'
for row in '0 0' '7 6' '10 9' '18446744073709551615 18446744073709551615'; do
  printf '%s\n' "$row" >s/supervise/counts
  metrics "counts: $row" "$some
starts_total 0 ${row% *}
deaths_total 0 ${row#* }" s
done
for row in '' '\n' '7 6' '7\n' '7 6 5\n' '7  6\n' ' 7 6\n' '7 6 \n' '07 6\n' '7 06\n' '00 0\n' '+7 6\n' '-7 6\n' '7\t6\n' '7 x\n' \
  '7 6\n\n' '7 6\n8 7\n' '7 6\r\n' '18446744073709551616 0\n' '0 18446744073709551616\n' '99999999999999999999 0\n' \
  '18446744073709551615 18446744073709551615\n\n' '18446744073709551615 18446744073709551615\nx' \
  '000000000000000000000000000000000000000000000001 1\n' '7 6\n\0' '0x7 6\n' '٧ 6\n'; do
  printf -- "$row" >s/supervise/counts
  metrics "counts: $row" "$some" s
done
rm s/supervise/counts
mkfifo s/supervise/counts
metrics 'counts: a pipe' "$some" s
rm s/supervise/counts
mkdir s/supervise/counts
metrics 'counts: a folder' "$some" s
rmdir s/supervise/counts

# The last end.
for row in '4710 status 0|last_exit_status 0 0' '4710 status 111|last_exit_status 0 111' '4710 signal KILL|last_signal 0 9' \
  '4710 signal 64|last_signal 0 64' '4710 unknown|' '4710 status 256|' '|'; do
  IFS='|' read -r words wanted <<<"$row"
  printf '%s @400000003a4fc88b00000000\n' "$words" >s/supervise/exit
  metrics "last: $words" "$some${wanted:+
$wanted}" s
done
printf '7 6\n' >s/supervise/counts
bytes "${label}671200000078" >s/supervise/status
metrics 'counts and an end beside a bad record' 'supervised 0 1' s
object 'counts and an end beside a bad record: object' 'error="bad status record: WantByte"' s
rm s/supervise/status s/supervise/counts s/supervise/exit

# Names of any bytes: what is said of each when nobody is there, and when its record is read.
up="up=true pid=4711 seconds=\"S\" phase=\"up\" want=\"up\" paused=false normally=\"up\" exiting=false ready=null finishing=false backoff=null $past"
names=('a b' '"' '\' '\"' "'" '{"path":"x"}' $'a\nb' $'\n' $'\t\r\b\f' $'\x01\x1f\x7f' '\u0041' '--json' '-x' 'grün' '日本' '🦀'
  $'\xe2\x80\xa8' "$(printf 'n%.0s' $(seq 255))" "$(printf '"%.0s' $(seq 255))" "$(printf '\\%.0s' $(seq 255))"
  "$(printf 'é%.0s' $(seq 127))")
errors=() stands=()
for name in "${names[@]}"; do errors+=('up=false error="supervise not running"'); done
missing=$(lacks "${names[@]}") object 'names: nobody there' "$(printf '%s\n' "${errors[@]}")" "${names[@]}"
for name in "${names[@]}"; do
  listen "./$name"
  bytes "${label}6712000000750003" >"./$name/supervise/status"
  stands+=("$up")
done
for name in "${names[@]}"; do object "name $(printf %q "$name")" "$up" "$name"; done
object 'all names' "$(printf '%s\n' "${stands[@]}")" "${names[@]}"
place=0
for name in "${names[@]}"; do
  printf '%s %s\n' $((place + 1)) $place >"./$name/supervise/counts"
  place=$((place + 1))
done
# each METRIC [VALUE]: that sample of each name; if no value is given it is one more than the place of the name
each() { for place in "${!names[@]}"; do echo "$1 $place ${2-$((place + 1))}"; done; }
metrics 'metrics: all names' "$(
  each supervised 1
  each up 1
  each seconds S
  each since_timestamp_seconds 978307200
  for phase in starting settling up down resting gone; do each "phase[$phase]" $([ $phase = up ] && echo 1 || echo 0); done
  each wanted_up 1
  each paused 0
  each ready 0
  each finishing 0
  each backing_off 0
  each starts_total
  for place in "${!names[@]}"; do echo "deaths_total $place $place"; done
)" "${names[@]}"

# Words.
object 'no service' ''
metrics 'metrics: no service' ''
missing=$(lacks nosuch nosuch) object 'a service twice' "$(printf '%s\n' 'up=false error="supervise not running"' 'up=false error="supervise not running"')" nosuch nosuch
is 'a form is the first word alone' "nosuch: supervise not running
$room/--json: unable to read status" "$(rm "$room/--json/supervise/status" && "$program" svstat nosuch "$room/--json" 2>/dev/null)"
timeout 120 "$program" svstat --json nosuch >/dev/full 2>reported </dev/null
is 'a full device: status' 111 "$?"
is 'a full device: reported' 'svstat: write fault: No space left on device' "$(cat reported)"
timeout 120 "$program" svstat --metrics nosuch >/dev/full 2>reported </dev/null
is 'metrics: a full device: status' 111 "$?"
is 'metrics: a full device: reported' 'svstat: write fault: No space left on device' "$(cat reported)"

# A service that svscan keeps.
mkdir -p services/web
printf '#!/bin/sh\nexec sleep 1000\n' >services/web/run
chmod 755 services/web/run
"$program" svscan services >/dev/null 2>&1 </dev/null &
listeners+=($!)
kept() {
  "$program" svstat --json services/web 2>/dev/null | python3 -c '
import json, sys
said = json.loads(sys.stdin.readline() or "{}")
print(said.get("phase"), said.get("pid") or 0, said.get("want"), said.get("exiting"), said.get("error"))'
}
for _ in $(seq 1500); do [[ $(kept) == 'up '* ]] && break; sleep 0.02; done
read -r phase pid want exiting error <<<"$(kept)"
is 'kept' 'up up False None' "$phase $want $exiting $error"
is 'kept: its process' sleep "$(cat "/proc/$pid/comm")"
is 'kept: the process of svstat' "$pid" "$("$program" svstat services/web | sed 's/.*(pid \([0-9]*\)).*/\1/')"
"$program" svstat --metrics services/web >out
is 'kept: metrics' "$(phases up | sed 's/ 0 / /')" \
  "$(sed -n 's/^dtools_service_phase{service="services.web",phase="\([a-z]*\)"} \([01]\)$/phase[\1] \2/p' out)"
is 'kept: up and supervised' '1 1' \
  "$(sed -n 's/^dtools_service_\(up\|supervised\){service="services.web"} \([01]\)$/\2/p' out | xargs)"
"$program" svc -d services/web
for _ in $(seq 1500); do [[ $(kept) == 'down '* ]] && break; sleep 0.02; done
is 'brought down' 'down 0 down False None' "$(kept)"
is 'brought down: its counts and its last end' "1 1 $pid None 15 True" "$("$program" svstat --json services/web | python3 -c '
import json, sys, time
said = json.loads(sys.stdin.readline())
last = said["last"]
print(said["starts"], said["deaths"], last["pid"], last["status"], last["signal"], time.time() - 60 < last["at"] <= said["since"])')"
is 'brought down: metrics' 'dtools_service_last_signal{service="services/web"} 15' \
  "$("$program" svstat --metrics services/web | grep '^dtools_service_last_')"
"$program" svc -x services/web
for _ in $(seq 1500); do [[ $(kept) == *'supervise not running' ]] && break; sleep 0.02; done
is 'let go' 'None 0 None None supervise not running' "$(kept)"
counts report

#!/usr/bin/env bash
# What is read and what is refused of status records, traces and `sim`'s lines, over more input than worked scripts can hold:
# each byte of a record in each of its values, each length, each front of a trace's text, the longest line, a thousand
# services, and each script of tests/cases that `sim` answers, a byte a read. Runs the program that the first word names.
# python3 says what must come, by the rules of docs/FORMATS.md.
# gate: 20 seconds, needs python3
tests=$(realpath "$(dirname "$0")")
# A file system in memory, if there is one: this makes thirty thousand files.
[ -w /dev/shm ] && export TMPDIR=/dev/shm
. "$tests/checks.sh" "$1"
leave() {
  [ -n "${listener:-}" ] && kill "$listener" 2>/dev/null
  rm -rf "$room"
}
trap leave EXIT
trap 'exit 1' INT TERM HUP

# Doors, each for forty services, which have links to it. Nobody accepts: who connects waits in a queue, and that serves.
python3 -c '
import socket, time
doors = []
for number in range(300):
    doors.append(socket.socket(socket.AF_UNIX))
    doors[number].bind(f"door{number}")
    doors[number].listen(64)
open("ready", "w").close()
time.sleep(600)
' &
listener=$!
disown
for _ in $(seq 3000); do [ -e ready ] && break; sleep 0.02; done
[ -e ready ] || { echo 'input: nobody listens'; exit 1; }

# Records: a paused service that is to go down and to end. wanted says what `svstat --json` must say of each, without the time.
cat >records.py <<'END'
import json, os, sys
BASE = bytes.fromhex("400000000000000b0000000067120000" "01" "64" "01" "03")
PHASES = ["starting", "settling", "resting", "up", "down", "gone"]
WANTS = {ord("u"): "up", ord("d"): "down", 0: "once"}


def stands(phase, pid, paused, want, exiting):
    if phase in ("starting", "resting"):
        return not pid and want != "down" and not exiting
    if phase == "settling":
        return pid and not paused and want != "down" and not exiting
    if phase == "up":
        return pid > 0
    if phase == "down":
        return not pid and want != "up" and not exiting
    return not pid and exiting


def refusal(record):
    """Why these bytes are no record, or None."""
    if len(record) not in (18, 20):
        return "Length"
    if int.from_bytes(record[:8], "big") >= 1 << 63 or int.from_bytes(record[8:12], "big") > 999999999:
        return "BadLabel"
    pid, paused, want = int.from_bytes(record[12:16], "little"), record[16], record[17]
    if paused > 1:
        return "PausedFlag"
    if paused and not pid:
        return "PausedNoProcess"
    if want not in WANTS:
        return "WantByte"
    if len(record) == 18:
        return None
    if record[18] > 1:
        return "ExitingFlag"
    if record[19] > 5:
        return "PhaseNumber"
    if not stands(PHASES[record[19]], pid, paused, WANTS[want], record[18]):
        return "NoSuchState"
    return None


def said(record):
    """What is said of a record, without the seconds."""
    why = refusal(record)
    if why:
        return {"error": "bad status record: " + why}
    pid, long = int.from_bytes(record[12:16], "little"), len(record) == 20
    return {"up": pid > 0, "pid": pid or None, "phase": PHASES[record[19]] if long else None, "want": WANTS[record[17]],
            "paused": record[16] == 1, "normally": "up", "exiting": record[18] == 1 if long else None, "ready": None,
            "finishing": False, "backoff": None}


records = []
for at in range(20):
    for value in range(256):
        records.append(BASE[:at] + bytes([value]) + BASE[at + 1:])
        if at < 18:
            records.append(records[-1][:18])
# Each state, and each number of a phase with it.
for pid in (b"\0\0\0\0", b"\1\0\0\0"):
    for paused in range(2):
        for want in WANTS:
            for exiting in range(2):
                for phase in range(7):
                    records.append(BASE[:12] + pid + bytes([paused, want, exiting, phase]))
for length in range(64):
    records.append((BASE * 4)[:length])
if sys.argv[1] == "make":
    for number, record in enumerate(records):
        os.makedirs(f"r{number}/supervise")
        os.symlink(f"../../door{number // 40}", f"r{number}/supervise/ok")
        with open(f"r{number}/supervise/status", "wb") as file:
            file.write(record)
    print(" ".join(f"r{number}" for number in range(len(records))))
else:
    lines = sys.stdin.read().splitlines()
    wrong = [] if len(lines) == len(records) else [f"{len(lines)} lines of {len(records)}"]
    for number, (record, line) in enumerate(zip(records, lines)):
        found = json.loads(line)
        found.pop("seconds", None)
        wanted = said(record)
        if "error" not in wanted:
            since = max(0, int.from_bytes(record[:8], "big") - 2**62 - 10)
            wanted.update(since=since, starts=None, deaths=None, last=None)
        if found != dict(path=f"r{number}", **wanted):
            wrong.append(f"{record.hex()}: {line}")
    print("\n".join(wrong[:10]) or f"{len(records)} records")
END
folders=$(python3 records.py make)
is 'records' "$(set -- $folders; echo $#) records" "$("$program" svstat --json $folders </dev/null | python3 records.py compare)"

# Each front of a trace's text is refused at the line that is not whole.
text='dtools-trace 1
base 2 up 400000000000000b00000000671200000075 stay -
byte d
death @400000000000000d00000000
end 2
'
wrong=
for length in $(seq 0 $((${#text} - 1))); do
  printf %s "${text:0:length}" >front
  number=$(($(wc -l <front) + 1))
  reported=$("$program" trace front 2>&1 >out)
  [ "$reported" = "trace: line $number: Line" ] && [ ! -s out ] || wrong+="$length: $reported, "
done
is 'fronts of a trace' '' "$wrong"
printf %s "$text" >front
is 'the whole trace' 'break 2' "$("$program" trace front --break phase:down)"

# The longest line: it is read, one byte more is not.
for row in '65535 UnknownEvent' '65536 UnknownEvent' '65537 Line' '200000 Line'; do
  head -c "${row% *}" /dev/zero | tr '\0' a >line
  is "a line of ${row% *}" "sim: line 1: ${row#* } 100" "$("$program" sim <line 2>&1) $?"
  echo >>line
  is "a line of ${row% *} and its newline" "sim: line 1: ${row#* } 100" "$("$program" sim <line 2>&1) $?"
done

# A thousand services: one more is refused, at each scan; one that has ended restarts, or goes and makes room.
# scan LABEL NAMES..: the line of a scan that finds directories of these names, each with a file down
scan() {
  printf 'scan @%s00000000' "$1"
  shift
  printf ' d-n-:%s' "$@"
  echo
}
# lives LABEL FROM TO: what begins in every second number, down
lives() {
  local at
  for at in $(seq "$2" 2 "$3"); do echo "$at.main.$((at + 1)) took record:${1}000000000000000000640004 -> down"; done
}
first=400000000000000a then=400000000000000d
{ scan $first d{0000..1000}; echo 'at 0.main.1 byte x'; } >thousand
{
  echo 'scan: 1000 started, 0 restarted, 0 dropped, 1 refused'
  lives $first 0 1998
  echo 'd1000 refused TooMany'
  echo "0.main.1 took record:${first}000000000000000000640105 -> gone"
} >answers
is 'a thousand services, one more refused' "$(cat answers <(echo "scan: 0 started, 1 restarted, 0 dropped, 1 refused
0.main.2000 took record:${then}000000000000000000640004 -> down
d1000 refused TooMany"))" "$({ cat thousand; scan $then d{0000..1000}; } | "$program" sim 2>&1)"
is 'a thousand services, one gone' "$(cat answers <(echo "scan: 1 started, 0 restarted, 1 dropped, 0 refused
0 dropped
2000.main.2001 took record:${then}000000000000000000640004 -> down"))" \
  "$({ cat thousand; scan $then d{0001..1000}; } | "$program" sim 2>&1)"

# A byte a read, if there is a C compiler.
if command -v cc >/dev/null; then
  cc -O1 -shared -fPIC -o devices.so "$tests/devices.c" -ldl || exit 1
  scripts=0
  for words in "$tests"/cases/sim_*.args; do
    script=${words%.args}
    [ -e "$script" ] && [ "$(cat "$words")" = sim ] || continue
    whole=$("$program" sim <"$script" 2>&1)
    whole+=" $?"
    slow=$(READ_MOST=1 LD_PRELOAD=$room/devices.so "$program" sim <"$script" 2>&1)
    slow+=" $?"
    is "$(basename "$script") a byte a read" "$whole" "$slow"
    scripts=$((scripts + 1))
  done
  is 'scripts of sim' yes "$([ "$scripts" -gt 20 ] && echo yes)"
fi
counts input

#!/usr/bin/env bash
# The scripts that end all services in order: svscan-run under a burst of signals, with its limit of open files, and svscan-stop,
# with services that ignore TERM, and as systemd runs it. Runs on the program that the first word names.
# gate: 30 seconds
top=$(realpath "$(dirname "$0")/..")
. "$top/tests/checks.sh" "$1"
groups=()
# the processes of services that are left
left() { own $(<numbers); }
leave() {
  for group in "${groups[@]}"; do kill_group "$group"; done
  cd "$room" && [ -e numbers ] && left | xargs -r kill -KILL 2>/dev/null
  rm -rf "$room"
}
trap leave EXIT
export DTOOLS=$program

# soon NAME COMMAND..: the command succeeds within a minute
soon() {
  local name=$1 seen=
  shift
  for _ in $(seq 1200); do "$@" >/dev/null 2>&1 && { seen=yes; break; }; sleep 0.05; done
  is "$name" yes "$seen"
}
number_of() { "$program" svstat "$1" | sed -n 's/.*up (pid \([0-9]*\)).*/\1/p'; }

# service FOLDER: of the lines that come, with their shell's number in the file `numbers`
service() {
  mkdir -p "$1"
  { printf '#!/bin/sh\necho $$ >>%q\n' "$room/numbers"; cat; } >"$1/run"
  chmod 755 "$1/run"
}

# begin SCRIPT WORDS..: starts it as a job of its own; its number is in `begun`
begin() {
  set -m
  "$@" </dev/null >>begun.out 2>>begun.reported &
  begun=$!
  disown -h "$begun"
  set +m
  groups+=("$begun")
}

# A burst of TERM, one each 0 to 4 ms, from the start of svscan, or from when it is served, until it has ended: svscan-run ends
# as svscan does.
mkdir d
is_started() { ps -o args= --ppid "$begun" | grep -q ' svscan d$'; }
statuses=
for turn in $(seq 20); do
  begin "$top/scripts/svscan-run" d
  soon 'svscan is started' is_started
  case $turn in *[02468]) soon 'svscan is served' "$program" svok d/.svscan ;; esac
  bash -c 'for ((sent = 0; sent < 5000; sent++)); do
    kill -TERM "$1" 2>/dev/null || exit
    read -r -t "0.00$((RANDOM % 5))" <>"$2"
  done' burst "$begun" <(:) 2>/dev/null &
  burst=$!
  wait "$begun"
  statuses="$statuses $?"
  wait "$burst"
done
is 'a burst of TERM: svscan-run ends as svscan does' "$(printf ' 0%.0s' $(seq 20))" "$statuses"

# Its services have the limit of open files that it was given, if that is enough.
service d/web <<'END'
ulimit -Sn >limit
exec sleep 1000
END
limit_of() {
  rm -f d/web/limit
  begin bash -c "ulimit -Sn $1; exec \"\$0\" d" "$top/scripts/svscan-run"
  for _ in $(seq 1200); do [ -s d/web/limit ] && break; sleep 0.05; done
  cat d/web/limit
  kill -TERM "$begun"
  wait "$begun"
}
is 'the limit of open files stays' 200 "$(limit_of 200)"
is 'it is raised to what twice these services need' 124 "$(limit_of 50)"

# svscan-stop: what ignores TERM is killed, its logger writes its last lines, and svscan ends.
service d/stubborn <<'END'
trap '' TERM
exec 2>&1
echo last words
while :; do sleep 0.1; done
END
service d/stubborn/log <<END
trap '' TERM
$(printf %q "$program") multilog ./main
exec sleep 1000
END
# The names of these two are removed while they run.
service own/removed <<'END'
trap '' TERM
while :; do sleep 0.1; done
END
service own/removed/log <<'END'
trap '' TERM
while :; do sleep 0.1; done
END
ln -s ../own/removed d/removed
begin "$program" svscan d
soon 'all run' "$program" wait -u d/web d/stubborn d/stubborn/log d/removed d/removed/log
svscan=$begun
rm d/removed
# As systemd runs it after svscan has ended by itself.
SERVICE_RESULT=success "$top/scripts/svscan-stop" d 1
is 'without a main process: status' 0 "$?"
is 'without a main process: svscan goes on' 0 "$(kill -0 "$svscan"; echo $?)"
SERVICE_RESULT=success MAINPID=$svscan "$top/scripts/svscan-stop" d 1 2>stop.reported
is 'svscan-stop: status' 0 "$?"
is 'svscan-stop: reported' '' "$(cat stop.reported)"
soon 'svscan has ended' bash -c "! kill -0 $svscan"
is 'no process is left' '' "$(left)"
is 'its last words are logged' 'last words' "$(tail -n 1 d/stubborn/log/main/current)"
"$top/scripts/svscan-stop" d 1
is 'svscan-stop without a svscan' 0 "$?"
"$top/scripts/svscan-stop" 2>stop.reported
is 'svscan-stop without words' '100 svscan-stop: usage: svscan-stop dir [seconds]' "$? $(cat stop.reported)"
counts ends

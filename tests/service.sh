#!/usr/bin/env bash
# Services are added and removed by dtools-service, under a svscan that keeps their folder. Runs on the program that the first
# word names.
# gate: 30 seconds
top=$(realpath "$(dirname "$0")/..")
. "$top/tests/checks.sh" "$1"
leave() {
  [ -z "${svscan:-}" ] || kill_group "$svscan"
  rm -rf "$room"
}
trap leave EXIT
export DTOOLS=$program SVDIR=$room/services
service() { "$top/scripts/dtools-service" "$@"; }

# ended NAME STATUS REPORTED WORDS..
ended() {
  local name=$1 status=$2 reported=$3
  shift 3
  service "$@" >out 2>reported
  is "$name: status" "$status" "$?"
  is "$name: reported" "$reported" "$(cat reported)"
}

# soon NAME COMMAND..: the command succeeds within two minutes
soon() {
  local name=$1 seen=
  shift
  for _ in $(seq 1200); do "$@" >/dev/null 2>&1 && { seen=yes; break; }; sleep 0.1; done
  is "$name" yes "$seen"
}
is_up() { "$program" svstat "$1" | grep -q ': up (pid .*seconds$'; }
is_served() { "$program" svok "$1"; }

mkdir -p services 'own/a b/log' own/empty
cat >'own/a b/run' <<'END'
#!/bin/sh
trap 'sleep 0.3; echo last words; exit' TERM
while :; do sleep 0.05; done
END
printf '#!/bin/sh\nexec %q multilog ./main\n' "$program" >'own/a b/log/run'
chmod +x own/*/run own/*/log/run

usage='dtools-service: usage: dtools-service --add folder [name] | --remove name | --list [name]'
ended 'no words' 100 "$usage"
ended 'an unknown word' 100 "$usage" --delete x
ended 'too many words' 100 "$usage" --add own/empty x y
ended 'a missing folder' 111 'dtools-service: own/none: no such folder' --add own/none
ended 'no run' 111 'dtools-service: own/empty: it has no run that can be executed' --add own/empty
ended 'a name with a dot' 111 'dtools-service: .x: no name of a service' --add 'own/a b' .x
ended 'a name with a slash' 111 'dtools-service: x/y: no name of a service' --add 'own/a b' x/y
ended 'nothing was added' 1 '' --list x
ended 'not there' 111 'dtools-service: x: it was not added so' --remove x

set -m
"$program" svscan services </dev/null >scan.out 2>scan.reported &
svscan=$!
disown
set +m
ended 'added' 0 '' --add 'own/a b'
ended 'added again' 111 'dtools-service: a b: it is there already' --add 'own/a b'
ended 'it is there' 0 '' --list 'a b'
ended 'the list' 0 '' --list
is 'the list' "a b $room/own/a b" "$(cat out)"
is 'svwait waits until it is supervised, and up' 0 "$("$program" wait -t 240 'services/a b'; echo $?)"
soon 'it is up' is_up 'services/a b'
soon 'its logger is up' is_up 'services/a b/log'
ended 'removed' 0 '' --remove 'a b'
is 'neither is served' '100 100' "$(for part in 'own/a b' 'own/a b/log'; do is_served "$part"; echo $?; done | xargs)"
is 'its last words are logged' 'last words' "$(cat 'own/a b/log/main/current')"
sleep 6
is 'it does not begin anew' 100 "$(is_served 'own/a b'; echo $?)"

# It asks svscan for a scan, so a service is there before the next round. Rounds are five seconds apart.
soon 'svscan is served' is_served services/.svscan
for turn in 1 2 3; do
  sleep 1
  begin=$(date +%s%N)
  ended "added, $turn" 0 '' --add 'own/a b'
  soon "served, $turn" is_served 'own/a b'
  echo $((($(date +%s%N) - begin) / 1000000)) >>took
  ended "removed, $turn" 0 '' --remove 'a b'
done
is 'it was served soon' yes "$([ "$(sort -n took | sed -n 2p)" -lt 1500 ] && echo yes || cat took)"
is 'svscan reported nothing' '' "$(cat scan.reported)"
counts service

#!/usr/bin/env bash
# Which service a word names, with and without the variable SVDIR, in each command that takes services, over services of a
# real svscan. Runs the program that the first word names. The rule is that of docs/FORMATS.md, "Names of services". No check
# rests on how fast this machine is: each waits for what it needs.
# gate: 20 seconds
. "$(dirname "$0")/checks.sh" "$1"
export LC_ALL=C
unset SVDIR
leave() {
  for group in "${groups[@]}"; do kill_group "$group"; done
  for _ in 1 2 3 4 5; do rm -rf "$room" 2>/dev/null && break; sleep 0.2; done
}
trap leave EXIT
trap 'exit 1' INT TERM HUP
groups=()

# service FOLDER: a service whose process says `began` in the file `lines` of its folder, and then only waits
service() {
  mkdir -p "$1"
  printf '#!/bin/sh\necho began >>lines\nexec sleep 1000\n' >"$1/run"
  chmod 755 "$1/run"
}

# scan FOLDER: svscan over it, until the service `web` there is up
scan() {
  setsid "$program" svscan "$1" >/dev/null 2>"$1.said" </dev/null &
  groups+=($!)
  "$program" wait -u -t 240 "$1/web" && return
  cat "$1.said"
  exit 1
}

# ended NAME STATUS PRINTED REPORTED WORDS..: a command in `work` ends so; numbers of processes and seconds are N
ended() {
  local name=$1 status=$2 printed=$3 reported=$4
  shift 4
  (cd "$room/work" && timeout -k 1 240 "$program" "$@" >"$room/out" 2>"$room/reported" </dev/null)
  is "$name: status" "$status" "$?"
  is "$name: printed" "$printed" "$(sed -E 's/\(pid [0-9]+\) [0-9]+ s/(pid N) N s/; s/down [0-9]+ s/down N s/' out)"
  is "$name: reported" "$reported" "$(tr -d '\0' <reported)"
}

# process FOLDER: the number in its record
process() { od -An -tu4 -j12 -N4 "$1/supervise/status" | tr -d ' '; }

none='No such file or directory'
mkdir work
service all/web
service all/both
service all/-u
service all/--json
service all/web/log
service work/both
service "all/with space"
service all/$'line\nend'
scan all
"$program" wait -u -t 240 all/both all/-u 'all/with space' all/$'line\nend' || exit 1

scenario='without SVDIR'
ended svstat 0 'web: supervise not running' "svstat: web: $none" svstat web
ended svc 0 '' "svc: warning: unable to control web: not running
svc: web: $none" svc -t web
ended svok 100 '' '' svok web
ended wait 102 '' "wait: web: supervise not running
wait: web: $none" wait -u web
ended restart 102 '' "restart: web: supervise not running
restart: web: $none" restart web
ended why 111 'web is not supervised: there is no such folder.' "why: web: $none" why web
ended trace 111 '' "trace: unable to read web: $none" trace web
ended 'no words' 0 '' '' svstat
ended '-l' 0 '-l: supervise not running' "svstat: -l: $none" svstat -l

scenario='SVDIR is empty'
export SVDIR=
ended 'no words' 0 '' '' svstat
ended svstat 0 'web: supervise not running' "svstat: web: $none" svstat web
ended svok 100 '' '' svok web
ended trace 111 '' "trace: unable to read web: $none" trace web

scenario='with SVDIR'
export SVDIR=$room/all
ended svstat 0 'web: up (pid N) N seconds' '' svstat web
ended svok 0 '' '' svok web
ended svc 0 '' '' svc -p web
"$program" wait -u -t 240 all/web
ended 'svstat of a paused one' 0 'web: up (pid N) N seconds, paused' '' svstat web
ended svc 0 '' '' svc -c web
ended wait 0 '' '' wait -u -t 240 web
before=$(process all/web)
ended restart 0 '' '' restart -t 240 web
is 'restart: another process' yes "$([ "$(process all/web)" != "$before" ] && echo yes)"
ended 'svc -d' 0 '' '' svc -d web
ended 'wait -d' 0 '' '' wait -d -t 240 web
ended 'svstat of one that is down' 0 'web: down N seconds, normally up' '' svstat web
ended 'svc -u' 0 '' '' svc -u web
ended 'wait -u' 0 '' '' wait -u -t 240 web
(cd work && "$program" trace web) >by_name
"$program" trace all/web >by_path
is 'trace by name' "$(cat by_path)" "$(cat by_name)"
is 'why by name' 'web is up' "$(cd work && "$program" why web | cut -c-9)"
is 'json by name' '"web"' "$(cd work && "$program" svstat --json web | sed 's/.*"path":\("[^"]*"\).*/\1/')"
is 'metrics by name' 1 "$(cd work && "$program" svstat --metrics web | sed -n 's/^dtools_service_supervised{service="web"} //p')"
is 'metrics have its counts' 1 "$(cd work && "$program" svstat --metrics web | grep -c '^dtools_service_starts_total{service="web"}')"
ended 'a missing one: svstat' 0 'no: supervise not running' "svstat: no: $none" svstat no
ended 'a missing one: svc' 0 '' "svc: warning: unable to control no: not running
svc: no: $none" svc -t no
ended 'a missing one: trace' 111 '' "trace: unable to read no: $none" trace no
ended 'a missing one: why' 111 'no is not supervised: there is no such folder.' "why: no: $none" why no

scenario='a folder here comes first'
ended svstat 0 'both: supervise not running' '' svstat both
ended svok 100 '' '' svok both
ended trace 111 '' "trace: unable to read both/supervise/trace: $none" trace both

scenario='a file here'
echo no trace >work/web
ended svstat 0 'web: up (pid N) N seconds' '' svstat web
ended svok 0 '' '' svok web
ended 'trace reads it' 111 '' 'trace: line 1: Line' trace web
rm work/web

scenario='a word with a slash'
ended svstat 0 './web: supervise not running' "svstat: ./web: $none" svstat ./web
ended svstat 0 'web/: supervise not running' "svstat: web/: $none" svstat web/
ended svok 100 '' '' svok ./web
ended trace 111 '' "trace: unable to read web/supervise/trace: $none" trace web/supervise/trace

scenario='other names'
ended 'an empty word' 0 ': supervise not running' "svstat: : $none" svstat ''
ended 'a name with a blank' 0 'with space: up (pid N) N seconds' '' svstat 'with space'
ended 'a name of two lines' 0 'line\x0aend: up (pid N) N seconds' '' svstat $'line\nend'
ended 'a name like an option' 0 '' '' svok -u
ended 'svscan itself' 0 '' '' svok .svscan
ended 'a name that is no text' 0 '' 'svc: warning: unable to control \xff: not running
svc: \xff: Invalid argument' svc -t $'\xff'

scenario='all services'
mkdir all/.hidden
echo no service >all/file
ln -s "$room/all/web" all/zlink
ln -s nowhere all/znone
mkdir 'all/'$'\xff'
"$program" wait -u -t 240 all/--json all/web/log all/zlink || exit 1
# rows SHADE NAMES..: a line for each, with the states in one column. Names of more than 32 bytes are not counted.
rows() {
  local shade=$1 width=0 name
  shift
  for name; do [ ${#name} -le 32 ] && [ ${#name} -gt $width ] && width=${#name}; done
  for name; do
    printf '%s:' "${name/$'\n'/\\x0a}"
    [ ${#name} -ge $width ] || printf '%*s' $((width - ${#name})) ''
    printf ' %s (pid N) N seconds\n' "$shade"
  done
}
list=("$room/all/--json" "$room/all/-u" "$room/all/both" $'line\nend' web 'with space' zlink)
ended 'by SVDIR' 0 "$(rows up "${list[@]}")" '' svstat
ended 'with loggers' 0 "$(rows up "${list[@]:0:5}" "$room/all/web/log" "${list[@]:5}" "$room/all/zlink/log")" '' svstat -l
if command -v python3 >/dev/null; then
  # terminal: what a terminal gets; numbers are N
  terminal() {
    (cd work && python3 -c 'import pty, sys; pty.spawn(sys.argv[1:])' "$program" "$@" </dev/null) | tr -d '\r' |
      sed -E 's/\(pid [0-9]+\) [0-9]+ s/(pid N) N s/; s/(down[^ ]*) [0-9]+ s/\1 N s/'
  }
  green=$'\e[32mup\e[0m'
  is 'a terminal' "$(rows "$green" "${list[@]}")" "$(terminal svstat)"
  is 'a terminal, NO_COLOR empty' "$(rows "$green" "${list[@]}")" "$(NO_COLOR='' terminal svstat)"
  is 'a terminal, NO_COLOR' "$(rows up "${list[@]}")" "$(NO_COLOR=1 terminal svstat)"
  is 'a terminal, and a service' 'web: up (pid N) N seconds' "$(terminal svstat web)"
  touch all/both/down
  "$program" svc -d all/both && "$program" wait -d -t 240 all/both
  is 'a terminal: down' $'\e[33mdown\e[0m N seconds' "$(terminal svstat | sed -n 's|.*/both: *||p')"
  rm all/both/down
  "$program" svc -u all/both && "$program" wait -u -t 240 all/both
fi
is 'json of all' 7 "$(cd work && "$program" svstat --json | grep -c '"path"')"
is 'json of all with loggers' 9 "$(cd work && "$program" svstat -l --json | grep -c '"path"')"
is 'metrics of all' 7 "$(cd work && "$program" svstat --metrics | grep -c '^dtools_service_supervised')"
is 'page of all' 7 "$(cd work && "$program" svstat --html | grep -c '^<tr><th scope="row">')"
is 'page of all with loggers' 9 "$(cd work && "$program" svstat -l --html | grep -c '^<tr><th scope="row">')"
ended 'with another word: no list' 0 "-l: supervise not running
web: up (pid N) N seconds" "svstat: -l: $none" svstat -l web
ended 'another command: no list' 100 '' '' svok
mkdir none
SVDIR=$room/none ended 'an empty folder' 0 '' '' svstat
SVDIR=$room/nowhere ended 'no such folder' 111 '' "svstat: unable to read SVDIR: $none" svstat
SVDIR=$room/all/file ended 'a file' 111 '' 'svstat: unable to read SVDIR: Not a directory' svstat

scenario='other values of SVDIR'
SVDIR=../all ended relative 0 'web: up (pid N) N seconds' '' svstat web
SVDIR=$room/all/ ended 'a slash at its end' 0 'web: up (pid N) N seconds' '' svstat web
SVDIR=$room/nowhere ended 'no such folder' 0 'web: supervise not running' "svstat: web: $none" svstat web
SVDIR=$'\xff' ended 'no text' 0 'web: supervise not running' "svstat: web: $none" svstat web
SVDIR=/$(printf '%5000s' '' | tr ' ' x) ended 'too long' 0 'web: supervise not running' "svstat: web: $none" svstat web
SVDIR=/$(printf '%4094s' '' | tr ' ' x) ended 'too long with the name' 0 'web: supervise not running' \
  'svstat: web: File name too long' svstat web

counts names

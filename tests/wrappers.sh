#!/usr/bin/env bash
# The scripts that stand in for the other names of daemontools: setuidgid, envuidgid, softlimit, setlock, pgrphack, fghack. The
# wanted values were written down from Debian's daemontools 0.76; if those are installed each line is compared with theirs
# too.
# gate: 25 seconds
top=$(realpath "$(dirname "$0")/..")
. "$top/tests/checks.sh" "$1"
trap 'rm -rf "$room"' EXIT
[ "$(id -u)" = 0 ] || { echo 'wrappers: skipped, root alone may change accounts'; exit 0; }
# A copy that every account reaches.
chmod 755 .
cp -r "$top/scripts" scripts
page=$top/man/dtools-softlimit.8
top=$room

# is_real COMMAND: whether daemontools' own is installed
real=$(dpkg -L daemontools 2>/dev/null)
is_real() { grep -qx "/usr/bin/$1" <<<"$real"; }

# ended NAME STATUS PRINTED REPORTED COMMAND WORDS..: this command of scripts/ ends so, and the installed one of daemontools with
# the same status and the same bytes printed
ended() {
  local name=$1 status=$2 printed=$3 reported=$4 command=$5
  shift 5
  timeout 120 "$top/scripts/$command" "$@" >out 2>reported </dev/null
  is "$command, $name: status" "$status" "$?"
  is "$command, $name: printed" "$printed" "$(cat out)"
  is "$command, $name: reported" "$reported" "$(cat reported)"
  is_real "$command" || return
  timeout 120 "/usr/bin/$command" "$@" >real.out 2>/dev/null </dev/null
  is "$command of daemontools, $name: status" "$status" "$?"
  is "$command of daemontools, $name: printed" "$printed" "$(cat real.out)"
}

# one_number COMMAND WORDS..: the program has the process number of the command
one_number() {
  local command=$1
  shift
  sh -c 'echo $$; exec "$0" "$@"' "$top/scripts/$command" "$@" sh -c 'echo $$' >numbers
  is "$command: one process" 1 "$(sort -u numbers | wc -l)"
}

# Each script prints its page by the program that it knows.
printf '#!/bin/sh\necho "$*"\n' >words
chmod 755 words
for script in envdir envuidgid setuidgid softlimit setlock pgrphack fghack multilog svscan-run svscan-stop dtools-service; do
  is "$script --help" "help $script" "$(DTOOLS=$room/words "$top/scripts/$script" --help 2>&1)"
done

usage='setuidgid: usage: setuidgid account child'
ended 'no words' 100 '' "$usage" setuidgid
ended 'no program' 100 '' "$usage" setuidgid nobody
ended 'no account' 111 '' 'setuidgid: unknown account nosuch' setuidgid nosuch true
ended 'a number' 111 '' 'setuidgid: unknown account 0' setuidgid 0 true
ended 'an empty name' 111 '' 'setuidgid: unknown account ' setuidgid '' true
ended 'a missing program' 111 '' 'setuidgid: unable to run ./none such: No such file or directory' setuidgid nobody './none such'
ended 'no program in PATH' 111 '' 'setuidgid: unable to run nosuch: No such file or directory' setuidgid nobody nosuch
ended 'numbers' 0 "$(id -u nobody) $(id -g nobody) $(id -g nobody)" '' setuidgid nobody sh -c 'echo $(id -u) $(id -g) $(id -G)'
ended 'words' 7 "a b|'|-x||" '' setuidgid nobody sh -c 'printf "%s|" "$@"; exit 7' sh 'a b' "'" -x ''
one_number setuidgid nobody
mkdir -m 755 seen
printf '#!/bin/sh\n' >seen/own
chmod 700 seen/own
ended 'not for the account' 111 '' "setuidgid: unable to run $room/seen/own: Permission denied" setuidgid nobody "$room/seen/own"
setpriv --reuid 65534 "$top/scripts/setuidgid" root true 2>reported
is 'setuidgid, no right: status' 111 "$?"
is 'setuidgid, no right: reported' 'setuidgid: unable to change to the account: Operation not permitted' "$(cat reported)"

# The tools of the system are found whatever the PATH that the program is to have; a tool of its name there is not run.
mkdir -m 755 evil
for tool in getent id setpriv prlimit flock env nice readlink setsid sh sleep; do printf '#!/bin/sh\necho foreign >&2\nexit 9\n' >evil/$tool; done
chmod 755 evil/*
for words in 'setuidgid nobody' 'setuidgid nosuch' 'envuidgid nobody' 'softlimit -o 50' 'setlock lock' pgrphack; do
  # shellcheck disable=SC2086
  is "by a foreign PATH: $words" "$(case $words in *nosuch) echo 'setuidgid: unknown account nosuch' ;; *) echo it ran ;; esac)" \
    "$(PATH=$room/evil "$top/scripts/"${words%% *} $(cut -s -d ' ' -f 2- <<<"$words") /bin/echo it ran 2>&1)"
done
rm -f lock

# Low limits before a wrapper: what these scripts and their tools need, and no more.
is 'setuidgid below -m 3000000' 'it ran' "$(ulimit -S -v 2929 -d 2929 -s 2929; "$top/scripts/setuidgid" nobody /bin/echo it ran 2>&1)"
is 'envuidgid below -m 3000000' 'it ran' "$(ulimit -S -v 2929 -d 2929 -s 2929; "$top/scripts/envuidgid" nobody /bin/echo it ran 2>&1)"
is 'softlimit below -m 3000000' 'it ran' "$(ulimit -S -v 2929 -d 2929 -s 2929; "$top/scripts/softlimit" -o 50 /bin/echo it ran 2>&1)"
is 'setuidgid below -s 65536' 'it ran' "$(ulimit -S -s 64; "$top/scripts/setuidgid" nobody /bin/echo it ran 2>&1)"
# The table of dtools-softlimit(8): with its values these two run dtools, too.
mkdir -m 755 table
echo yes >table/ROOM
for wrapper in envdir multilog; do
  IFS='|' read -r as data stack _ <<<"$(sed -n "s/^\.It $wrapper Ta //p" "$page" | sed 's/ Ta /|/g; s/,//g')"
  case $wrapper in
    envdir) words=(table sh -c 'echo "$ROOM"') ;;
    multilog) words=(=kept) ;;
  esac
  for limit in "as=$as" "data=$data" "stack=$stack"; do
    rm -f kept
    out=$(echo yes | DTOOLS=$program prlimit "--$limit:" "$top/scripts/$wrapper" "${words[@]}" 2>&1)
    is "$wrapper below $limit" yes "$out$([ ! -e kept ] || head -n 1 kept)"
  done
done
for words in 'softlimit -o 50' 'envuidgid nobody' pgrphack; do
  # No other process of this account may be started.
  # shellcheck disable=SC2086
  is "below -p 1: $words" 'it ran' "$(setpriv --reuid 65533 --regid 65533 --clear-groups prlimit --nproc=1: \
    "$top/scripts/"$words /bin/echo it ran 2>&1)"
done

ended 'no words' 100 '' 'envuidgid: usage: envuidgid account child' envuidgid
ended 'no account' 111 '' 'envuidgid: unknown account nosuch' envuidgid nosuch true
ended 'a missing program' 111 '' 'envuidgid: unable to run nosuch: No such file or directory' envuidgid nobody nosuch
ended 'numbers' 0 "UID=$(id -u nobody) GID=$(id -g nobody)" '' envuidgid nobody bash -c 'env | grep "^[UG]ID=" | sort -r | xargs'
cp /bin/true ./a=b
ended 'a name with =' 0 '' '' envuidgid nobody ./a=b
one_number envuidgid nobody

usage='softlimit: usage: softlimit [-a allbytes] [-c corebytes] [-d databytes] [-f filebytes] [-l lockbytes] [-m membytes] [-o openfiles] [-p processes] [-r residentbytes] [-s stackbytes] [-t cpusecs] child'
ended 'no words' 100 '' "$usage" softlimit
ended 'no number' 100 '' "$usage" softlimit -d abc true
ended 'half a number' 100 '' "$usage" softlimit -d 5x true
ended 'no program' 100 '' "$usage" softlimit -d 5000000
ended 'a missing program' 111 '' 'softlimit: unable to run no such: No such file or directory' softlimit 'no such'
ended 'no limit' 3 '' '' softlimit sh -c 'exit 3'
show='for limit in AS CORE DATA FSIZE MEMLOCK NOFILE NPROC RSS STACK CPU; do
  set -- $(prlimit --raw --noheadings --output SOFT,HARD --$(echo $limit | tr A-Z a-z)); echo $limit $1 $2; done'
for words in '-a 900000000' '-c 5000' '-d 90000000' '-f 70000' '-l 30000' '-m 900000000' '-o 20' '-p 900' '-r 8000000' \
  '-s 4000000' '-t 100' '-o =' '-o 99999999999' '-o 9999999999999999999' '-c 99999999999999999999999' '-m 900000000 -d 80000000 -o 30 -c 0'; do
  # shellcheck disable=SC2086
  "$top/scripts/softlimit" $words sh -c "$show" >ours 2>&1
  case $words in
    -o\ 20) is 'softlimit, open files' 'NOFILE 20' "$(grep NOFILE ours | cut -d' ' -f1,2)" ;;
    -m\ 900000000) is 'softlimit, memory' 'AS 900000000 DATA 900000000' "$(grep -E '^(AS|DATA)' ours | cut -d' ' -f1,2 | xargs)" ;;
    -c\ 9999*) is 'softlimit, too large a number' "CORE $(ulimit -Hc)" "$(grep CORE ours | cut -d' ' -f1,2)" ;;
    *-c\ 0) is 'softlimit, several' 'AS 900000000 CORE 0 DATA 80000000 NOFILE 30' \
      "$(grep -E '^(AS|CORE|DATA|NOFILE)' ours | cut -d' ' -f1,2 | xargs)" ;;
  esac
  is "softlimit, hard limits stay ($words)" "$(sh -c "$show" | cut -d' ' -f1,3)" "$(cut -d' ' -f1,3 ours)"
  # Of a number that has no place in 64 bits the real one takes what is left of it.
  [ "$words" != '-c 99999999999999999999999' ] && is_real softlimit || continue
  # shellcheck disable=SC2086
  /usr/bin/softlimit $words sh -c "$show" >real 2>&1
  is "softlimit as daemontools' ($words)" "$(cat real)" "$(cat ours)"
done
one_number softlimit -o 50

usage='setlock: usage: setlock [ -nNxX ] file program [ arg ... ]'
ended 'no words' 100 '' "$usage" setlock
ended 'no program' 100 '' "$usage" setlock lock
ended 'a missing program' 111 '' 'setlock: unable to run no such: No such file or directory' setlock lock 'no such'
ended 'no file' 111 '' 'setlock: unable to open nosuch/lock: No such file or directory' setlock nosuch/lock true
ended 'no file, -x' 0 '' '' setlock -x nosuch/lock true
ended 'words' 7 'a b|' '' setlock 'a lock' sh -c 'printf "%s|" "$1"; exit 7' sh 'a b'
rm lock
"$top/scripts/setlock" lock true
is 'setlock, mode of a new file' 600 "$(stat -c %a lock)"
echo kept >>lock
# The holder of a lock goes on once a file `go` is there, so that nothing here depends on how fast this machine is.
"$top/scripts/setlock" lock sh -c 'echo held >held; while ! [ -e go ]; do sleep 0.05; done; echo first >>order' &
while ! [ -s held ]; do sleep 0.05; done
ended 'locked, -n' 111 '' 'setlock: unable to lock lock: Resource temporarily unavailable' setlock -n lock true
ended 'locked, -nx' 0 '' '' setlock -nx lock echo ran
"$top/scripts/setlock" lock sh -c 'echo second >>order' &
second=$!
sleep 0.3
: >go
wait "$second"
is 'setlock, waits' 'first second' "$(xargs <order)"
is 'setlock, the file stays as it is' kept "$(cat lock)"
one_number setlock lock
wait
rm go
# A lock under another one: both are held.
"$top/scripts/setlock" lock "$top/scripts/setlock" other sh -c ': >both; while ! [ -e go ]; do sleep 0.05; done' &
while ! [ -e both ]; do sleep 0.05; done
ended 'the outer lock, -n' 111 '' 'setlock: unable to lock lock: Resource temporarily unavailable' setlock -n lock true
ended 'the inner lock, -n' 111 '' 'setlock: unable to lock other: Resource temporarily unavailable' setlock -n other true
: >go
wait

# pgrphack: a session of its own, or the group that it leads already, and the process number stays.
ended 'no words' 100 '' 'pgrphack: usage: pgrphack child' pgrphack
ended 'a missing program' 111 '' 'pgrphack: unable to run nosuch: No such file or directory' pgrphack nosuch
ended 'words' 7 'a b|' '' pgrphack sh -c 'printf "%s|" "$1"; exit 7' sh 'a b'
one_number pgrphack
# the process's number, its group's and its session's
cat >whose <<'END'
read -r line </proc/self/stat
set -- $$ ${line##*) }
echo "$1 $4 $5"
END
read -r number group session <<<"$("$top/scripts/pgrphack" sh whose)"
is 'pgrphack: it leads its group and its session' "$number $number" "$group $session"
read -r number group session <<<"$("$top/scripts/pgrphack" "$top/scripts/pgrphack" sh whose)"
is 'pgrphack, twice' "$number $number" "$group $session"
set -m
sh -c 'echo $$ >leader; exec "$0" sh whose' "$top/scripts/pgrphack" >led &
wait $!
set +m
is 'pgrphack of a leader: the number stays' "$(cat leader)" "$(cut -d ' ' -f 1 led)"
# What it sends to its own group reaches nobody else.
is 'pgrphack: kill 0' 'alive' "$(setsid -w sh -c '"$0" sh -c "kill 0"; echo alive' "$top/scripts/pgrphack" 2>/dev/null)"

# fghack: it waits until nobody has the pipe any more.
ended 'no words' 100 '' 'fghack: usage: fghack child' fghack
ended 'a missing program' 111 '' 'fghack: unable to run nosuch: No such file or directory' fghack nosuch
ended 'status' 7 'a b|' '' fghack sh -c 'printf "%s|" "$1"; exit 7' sh 'a b'
ended 'a signal' 111 '' '' fghack sh -c 'kill -KILL $$'
is 'fghack: its input' hello "$(echo hello | "$top/scripts/fghack" cat)"
is 'fghack: both outputs' 'out err' "$("$top/scripts/fghack" sh -c 'echo out; echo err >&2' 2>&1 | xargs)"
cat >daemon <<'END'
# in the background, in a session of its own, with nothing of the caller's
setsid sh -c 'while ! [ -e go ]; do sleep 0.05; done; echo ended >daemon.ended' </dev/null >/dev/null 2>&1 &
exit 3
END
rm -f go
"$top/scripts/fghack" sh daemon &
waiting=$!
sleep 0.5
is 'fghack: it waits' yes "$(kill -0 "$waiting" 2>/dev/null && echo yes)"
: >go
wait "$waiting"
is 'fghack: the status is that of the program' 3 "$?"
is 'fghack: the daemon had ended' ended "$(cat daemon.ended)"
sed -i 's|^setsid|3>\&- 4>\&- 5>\&- 6>\&- 7>\&- 8>\&- 9>\&- setsid|; s/daemon.ended/closed.ended/' daemon
rm go
"$top/scripts/fghack" sh daemon
is 'fghack: not for one that closes the pipe: status' 3 "$?"
is 'fghack: not for one that closes the pipe' no "$([ -e closed.ended ] || echo no)"
: >go
while ! [ -e closed.ended ]; do sleep 0.05; done
counts wrappers

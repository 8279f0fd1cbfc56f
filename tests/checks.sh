# What the scripts in this folder share. Each sources it with the program's path, and is then in an empty folder of its
# own, `room`, which it takes away as it leaves.
set -u
program=$(realpath "$1")
room=$(realpath "$(mktemp -d)")
cd "$room" || exit 1
umask 022
checked=0
failed=0

# is NAME WANTED GOT: counts a check, and prints it if it fails, after its scenario if there is one
is() {
  checked=$((checked + 1))
  [ "$2" = "$3" ] && return
  failed=$((failed + 1))
  printf 'FAILED %s%s\n  wanted %q\n  got    %q\n' "${scenario:+$scenario: }" "$1" "$2" "$3"
}

# What listens for this script.
listeners=()

# listen FOLDER: somebody accepts at its socket supervise/ok, until the script leaves
listen() {
  mkdir -p "$1/supervise"
  (cd "$1" && exec python3 -c '
import socket
door = socket.socket(socket.AF_UNIX)
door.bind("supervise/ok")
door.listen(16)
open("supervise/listens", "w").close()
while True:
    door.accept()[0].close()
') &
  listeners+=($!)
  for _ in $(seq 3000); do [ -e "$1/supervise/listens" ] && return; sleep 0.02; done
  echo "nobody listens in $1"
  exit 1
}

# leave: ends what listens, and takes the room away
leave() {
  own "${listeners[@]}" | xargs -r kill 2>/dev/null
  chmod -R u+rwx "$room"
  rm -rf "$room"
}

# bytes DIGITS: the bytes of these hexadecimal digits
bytes() { printf "$(printf '%s' "$1" | sed 's/../\\x&/g')"; }

# folder_of NUMBER: the working folder of a process, if there is one with this number
folder_of() { readlink "/proc/$1/cwd" 2>/dev/null; }

# own NUMBER..: those of these processes that work in a folder of this script. Once a process has ended, the system gives its
# number to another one, which may be another script's.
own() {
  local number
  for number in "$@"; do
    case $(folder_of "$number") in "$room" | "$room"/* | "$room "*) echo "$number" ;; esac
  done
}

# kill_group NUMBER: kills a process group that this script started. If another process has the number of its leader since
# then, the group is gone.
kill_group() {
  [ -z "$(folder_of "$1")" ] || [ -n "$(own "$1")" ] || return 0
  kill -KILL -- "-$1" 2>/dev/null
}

# stood_still FILE: looks at the clock each 20 ms until TERM comes. Adds the longest time between two looks to a file, in milliseconds
stood_still() {
  local last=${EPOCHREALTIME/[.,]/} now most=0 ended=
  trap 'ended=1' TERM
  while [ -z "$ended" ]; do
    sleep 0.02
    now=${EPOCHREALTIME/[.,]/}
    [ $((now - last)) -le "$most" ] || most=$((now - last))
    last=$now
  done
  echo $((most / 1000)) >>"$1"
}

# undisturbed COMMAND..: runs the command, and anew up to eight times as long as the machine stood still meanwhile, for 0.3 s or more
undisturbed() {
  local status still
  for _ in 1 2 3 4 5 6 7 8; do
    stood_still stood &
    still=$!
    "$@"
    status=$?
    kill -TERM "$still" 2>/dev/null
    wait "$still"
    [ "$(tail -n 1 stood 2>/dev/null || echo 0)" -ge 300 ] || break
  done
  return "$status"
}

# counts NAME: how many checks there were, and how many failed; fails if one did
counts() {
  echo "$1: $checked checks, $failed failed"
  [ "$failed" = 0 ]
}

#!/usr/bin/env bash
# The rules of multilog's page in numbers, whatever the devices give: reads of 1, 7, 1000 and 4096 bytes, writes of three, a
# write that takes nothing or fails, a clock that stops. And what sim, tai64n, readproctitle and trace leave if they are
# interrupted, or a read or a write of theirs fails: each byte's write in turn. Runs the program that the first word names by
# way of libraries between it and the system (devices.c, faults.c), if there is a C compiler. The wanted values are worked
# by hand.
# gate: 20 seconds, needs cc
tests=$(dirname "$(realpath "$0")")
# A file system in memory, if there is one: multilog has its files written to the disk.
[ -w /dev/shm ] && export TMPDIR=/dev/shm
. "$tests/checks.sh" "$1"
trap 'rm -rf "$room"' EXIT
for name in devices faults; do cc -O1 -shared -fPIC -o $name.so "$tests/$name.c" -ldl || exit 1; done

# over LIBRARY SETTINGS WORDS..: multilog over the file `in` in a new folder, by way of a library, with these variables.
# What it says is left in reported, its status in status.
over() {
  local library=$1 settings=$2
  shift 2
  rm -rf tried
  mkdir tried
  # shellcheck disable=SC2086
  reported=$(cd tried && timeout 240 env LD_PRELOAD="$room/$library.so" CLOCK=0 $settings "$program" multilog "$@" 2>&1 <../in)
  status=$?
}
# by SETTINGS WORDS..: the program over the file `in`, by way of both libraries, with these variables. What it prints is left
# in out, what it says in reported, its status in status.
by() {
  local settings=$1 both=$room/devices.so:$room/faults.so
  shift
  # shellcheck disable=SC2086
  reported=$(timeout 240 env LD_PRELOAD="$both" FAULT_MET=met $settings "$program" "$@" 2>&1 >out <in)
  status=$?
}
# so many `a`, and then this
as() {
  head -c "$1" /dev/zero | tr '\0' a
  printf "$2"
}
size() { stat -c %s "$1"; }
# The files of a log, but for its lock: name and size of each.
files() { (cd "tried/$1" && stat -c '%n %s' @* current 2>/dev/null | tr '\n' ' '); }
first=@400000000000000a00000000.s

for most in 1 7 1000 4096; do
  reads="READ_MOST=$most"
  scenario="reads of $most"
  : >in
  over devices $reads t '-*' '+* fatal: *' ./log
  is 'empty input' "0  current 0 " "$status $reported $(files log)"
  printf 'fatal: x' >in
  over devices $reads t '-*' '+* fatal: *' ./log
  is 'a stamped line' "$(printf '@400000000000000a00000000 fatal: x\n.')" "$(cat tried/log/current && echo .)"
  for count in 1000 1001; do
    as "$count" '\n' >in
    over devices $reads =st
    is "status of $count bytes" same "$(as 1000 '\n' | cmp - tried/st 2>&1 && echo same)"
  done
  as 999 'b\n' >in
  over devices $reads '-*' '+*b' ./log
  is 'the 1000th byte is looked at' 'current 1001 ' "$(files log)"
  as 1000 'b\n' >in
  over devices $reads '-*' '+*b' ./log
  is 'the 1001st is not' 'current 0 ' "$(files log)"
  as 201 '' >in
  over devices $reads e
  is 'an alert' "$(as 200 '')" "$reported"
  as 2094 '\n' >in
  over devices $reads s4096 n2 ./log
  is 'not full' 'current 2095 ' "$(files log)"
  as 2095 '\n' >in
  over devices $reads s4096 n2 ./log
  is 'full' "$first 2096 current 0 " "$(files log)"
  as 5000 '\n' >in
  over devices $reads s4096 n2 ./log
  is 'a long line is cut' "$first 4096 current 905 " "$(files log)"
  { as 2095 '\n'; as 2095 '\n'; } >in
  over devices $reads s4096 n2 ./log
  is 'a name is given once' '@400000000000000a00000001.s 2096 current 0 ' "$(files log)"
  rm -rf tried
  mkdir -p tried/found tried/after
  as 5000 '' >tried/found/current
  echo a >in
  by "CLOCK=0 $reads" multilog s4096 n2 ./tried/found
  is 'more than fills a file' "$first 5000 current 2 " "$(files found)"
  : >tried/after/@400000000000000b00000000.s
  as 2095 '\n' >in
  by "CLOCK=0 $reads" multilog s4096 n2 ./tried/after
  is 'a name past the greatest' '@400000000000000b00000001.s 2096 current 0 ' "$(files after)"
  # 244 files are finished, of which nine are kept.
  as 1000000 '\n' >in
  over devices $reads s4096 ./log
  is 'a line of a million bytes' "0  $(for last in eb ec ed ee ef f0 f1 f2 f3; do
    printf '@400000000000000a000000%s.s 4096 ' $last
  done)current 577 " "$status $reported $(files log)"
done

scenario='devices that fail'
echo abcdef >in
over devices WRITE_MOST=3 ./log
is 'three bytes a write' '0 abcdef' "$status $(cat tried/log/current)"
# That nothing was taken has no cause of the system's.
for row in 'WRITE_STOPS=2|unknown cause' 'WRITE_STOPS=2 WRITE_ERROR=5|Input/output error' \
  'WRITE_STOPS=2 WRITE_ERROR=28|No space left on device'; do
  over devices "WRITE_MOST=3 ${row%|*}" ./log
  is "three bytes, then ${row%|*}" "111 multilog: Store: unable to write ./log/current: ${row#*|} abc" \
    "$status $reported $(cat tried/log/current)"
done
for row in 'WRITE_STOPS=1|unknown cause' 'WRITE_STOPS=1 WRITE_ERROR=5|Input/output error'; do
  over devices "${row%|*}" ./log
  is "nothing, by ${row%|*}" "111 multilog: Store: unable to write ./log/current: ${row#*|} current 0 " "$status $reported $(files log)"
done
as 2095 '\nx' >in
over devices 'WRITE_MOST=3 INTERRUPTED=1' s4096 n2 ./log
is 'three bytes a write: files' "0  $first 2096 current 2 " "$status $reported $(files log)"
over devices 'WRITE_TO=2 WRITE_MOST=3 INTERRUPTED=1' e
is 'three bytes a write: alerts' "0 $(as 200 '\nx')" "$status $reported"
over faults 'FAULT=write:1:5 FAULT_MET=met' e
is 'an alert that fails' '111 multilog: Store: unable to write standard error: Input/output error' "$status $reported"
over faults 'FAULT=rename:1:5 FAULT_MET=met' =st
is 'a status file that fails' '111 multilog: Store: unable to write st: Input/output error none' "$status $reported $([ -e tried/st ] || echo none)"
as 2095 '\n' >in
over faults "FAULT=rename:1:5 FAULT_MET=met" s4096 n2 ./log
is 'a file that is not finished' '111 multilog: Store: unable to finish ./log/current: Input/output error current 2096 ' "$status $reported $(files log | tr -d '\0')"
{ as 2095 '\n'; as 2095 '\n'; } >in
over faults "FAULT=unlink:1:5 FAULT_MET=met" s4096 n2 ./log
is 'an old file that stays' '111 multilog: Store: unable to remove an old file of ./log: Input/output error 2 x 2096 current 0 ' \
  "$status $reported $(find tried/log -name '@*' -size 2096c | wc -l) x 2096 current $(size tried/log/current) "
printf 'x\nab' >in
over faults "FAULT=read:2:5 FAULT_MET=met" ./log
is 'a read that fails' '111 multilog: Read: Input/output error x' "$status $reported $(head -n 1 tried/log/current)"
is 'and a front of the rest' yes "$(printf 'x\nab\n' | head -c "$(size tried/log/current)" | cmp - tried/log/current && echo yes)"
mkfifo channel
over faults 'FAULT=poll:1:5 FAULT_MET=met DTOOLS_STOP_FD=7' ./log 7<>channel
is 'a wait that fails' '111 multilog: Read: Input/output error 0' "$status $reported $(size tried/log/current)"
for row in '1 5' '7 2'; do
  rm -rf tried
  by "READ_MOST=${row% *} FAULT=read:${row#* }:5" multilog ./tried
  is "a read of ${row% *} that fails" '111 multilog: Read: Input/output error x' "$status $reported $(head -n 1 tried/current)"
done

# fronts COUNT SAID WORDS..: the write of the first, the second, .. of so many bytes takes nothing, or fails: those before it
# were printed, and this is reported, with the cause. If all are written, they are those of the file `wanted`.
fronts() {
  local count=$1 said=$2 written cause right=0 settings='WRITE_TO=1 WRITE_MOST=1 INTERRUPTED=1'
  shift 2
  by "$settings" "$@"
  is 'a byte a write' "0  $count bytes same" "$status $reported $(size out) bytes $(cmp wanted out && echo same)"
  for written in $(seq 0 $((count - 1))); do
    by "$settings WRITE_STOPS=$((written + 1)) WRITE_ERROR=$((written % 2 * 5))" "$@"
    cause='unknown cause'
    [ $((written % 2)) = 1 ] && cause='Input/output error'
    [ "$status $reported $(size out)" = "111 $said: $cause $written" ] && cmp -s <(head -c "$written" wanted) out && right=$((right + 1))
  done
  is 'fronts where a write fails' "$count" "$right"
}
scenario=sim
cp "$tests/cases/sim_service" in
cp "$tests/cases/sim_service.stdout" wanted
fronts 335 'sim: write fault' sim
by 'READ_MOST=1 INTERRUPTED=1' sim
is 'a byte a read' '0  same' "$status $reported $(cmp wanted out && echo same)"
by "READ_MOST=1 FAULT=read:$(($(size in) + 1)):5" sim
is 'a read that fails' '111 sim: read fault: Input/output error same' "$status $reported $(cmp wanted out && echo same)"
by 'READ_MOST=1 FAULT=read:36:5' sim
is 'a read that fails behind a line' '111 sim: read fault: Input/output error same' "$status $reported $(head -n 1 wanted | cmp - out && echo same)"
scenario=readproctitle
printf abc >in
echo ...bc >wanted
fronts 6 'readproctitle: write fault' readproctitle 12345
by 'READ_MOST=1 INTERRUPTED=1' readproctitle 12345
is 'a byte a read' '0  ...bc' "$status $reported $(cat out)"
by 'READ_MOST=1 FAULT=read:4:5' readproctitle 12345
is 'a read that fails' '111 readproctitle: read fault: Input/output error 0' "$status $reported $(size out)"
scenario=trace
cp "$tests/cases/trace_explained" text
cp "$tests/cases/trace_explained.stdout" wanted
fronts 135 'trace: write fault' trace text

# The clock at the greatest second of all.
scenario=tai64n
printf 'a\n' >in
printf '@7fffffffffffffff00000000 a\n' >wanted
export CLOCK=4611686018427387893
fronts 28 'tai64n: Write' tai64n
by 'READ_MOST=1 INTERRUPTED=1 FAULT=read:3:5' tai64n
is 'a read that fails' '111 tai64n: Read: Input/output error same' "$status $reported $(cmp wanted out && echo same)"
unset CLOCK
# A line is stamped at its first byte, with one look at the clock, and what a read gave is written before the next: the first
# line after one read; the second after three reads, two writes and one look, or in the same read after one look.
printf 'a\nb' >in
by 'WRITE_TO=1 CLOCK_COUNTS=1 READ_MOST=1 INTERRUPTED=1' tai64n
is 'a byte a read' "$(printf '@400000000000000b00000000 a\n@40000000000027e500000000 b.')" "$(cat out; echo .)"
by 'WRITE_TO=1 CLOCK_COUNTS=1' tai64n
is 'one read' "$(printf '@400000000000000b00000000 a\n@400000000000271b00000000 b.')" "$(cat out; echo .)"
scenario='nothing to write'
: >in
for command in sim tai64n; do
  by 'WRITE_TO=1 WRITE_STOPS=1 WRITE_ERROR=5' $command
  is "$command" '0 ' "$status $reported"
done
scenario=
counts devices

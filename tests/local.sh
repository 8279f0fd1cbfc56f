#!/usr/bin/env bash
# `tai64nlocal`: local times of several zones, hostile lines, lines in pieces, and a million lines. The wanted values
# were written down from daemontools 0.76 (cr.yp.to/daemontools/tai64nlocal.html); if Debian's daemontools are
# installed, also what their tai64nlocal makes. Then the times of `trace --local`, and which trace is meant.
# gate: 20 seconds
top=$(realpath "$(dirname "$0")/..")
. "$top/tests/checks.sh" "$1"
leave() { rm -rf "$room"; }
trap leave EXIT
[ -e /usr/share/zoneinfo/Europe/Berlin ] || { echo 'local: tzdata is missing'; exit 1; }
unset TZ TZDIR
real=/usr/bin/tai64nlocal
dpkg -S "$real" 2>/dev/null | grep -q ^daemontools: || real=

# localised ZONE: what becomes of the standard input
localised() { TZ=$1 timeout 120 "$program" tai64nlocal; }

# becomes NAME ZONE TEXT WANTED: both with the escapes of printf
becomes() { is "$1" "$(printf "$4" | od -An -c)" "$(printf "$3" | localised "$2" | od -An -c)"; }

# as_real NAME ZONE FILE: byte for byte what Debian's makes
as_real() {
  [ -n "$real" ] || return
  TZ=$2 "$real" <"$3" >by_daemontools
  localised "$2" <"$3" >by_program
  is "$1: as daemontools'" '' "$(cmp by_daemontools by_program 2>&1)"
}

# Zones. 1,795,568,523 is 2026-11-25 01:02:03 UTC; the clocks of Berlin change at 1,774,746,000 and 1,792,890,000.
label() { printf '@%016x%08x' $((0x400000000000000a + $1)) "$2"; }
noon=$(label 1795568523 123456789)
becomes UTC UTC "$noon x\n" '2026-11-25 01:02:03.123456789 x\n'
becomes 'TZ empty' '' "$noon x\n" '2026-11-25 01:02:03.123456789 x\n'
becomes 'no such zone' No/Such_Zone "$noon x\n" '2026-11-25 01:02:03.123456789 x\n'
becomes 'half an hour' Asia/Kolkata "$noon x\n" '2026-11-25 06:32:03.123456789 x\n'
becomes Berlin Europe/Berlin "$noon x\n" '2026-11-25 02:02:03.123456789 x\n'
becomes 'a colon' :Europe/Berlin "$noon x\n" '2026-11-25 02:02:03.123456789 x\n'
becomes 'a path' /usr/share/zoneinfo/Europe/Berlin "$noon x\n" '2026-11-25 02:02:03.123456789 x\n'
becomes 'a rule' 'EST5EDT,M3.2.0,M11.1.0' "$noon x\n" '2026-11-24 20:02:03.123456789 x\n'
becomes 'a rule without days' CET-1CEST "$noon\n" '2026-11-25 02:02:03.123456789\n'
becomes 'a rule without days in summer' CET-1CEST "$(label 1782000000 0)\n" '2026-06-21 02:00:00.000000000\n'
becomes 'no rule' CET "$noon\n" '2026-11-25 02:02:03.123456789\n'
becomes 'the changes of a rule without them' CET-1CEST "$(label 1773500000 0)\n" '2026-03-14 16:53:20.000000000\n'
becomes 'a rule of one offset' XYZ-5 "$noon\n" '2026-11-25 06:02:03.123456789\n'
becomes 'a rule in summer' 'EST5EDT,M3.2.0,M11.1.0' "$(label 1782000000 0)\n" '2026-06-20 20:00:00.000000000\n'
becomes 'before summer' Europe/Berlin "$(label 1774745999 999999999)\n" '2026-03-29 01:59:59.999999999\n'
becomes 'summer begins' Europe/Berlin "$(label 1774746000 0)\n" '2026-03-29 03:00:00.000000000\n'
becomes 'before winter' Europe/Berlin "$(label 1792889999 0)\n" '2026-10-25 02:59:59.000000000\n'
becomes 'winter begins' Europe/Berlin "$(label 1792890000 0)\n" '2026-10-25 02:00:00.000000000\n'
mkdir zones
cp /usr/share/zoneinfo/Asia/Kolkata zones/Here
is 'TZDIR' '2026-11-25 06:32:03.123456789' "$(echo "$noon" | TZDIR=$room/zones localised Here)"
printf 'no zone' >zones/Broken
is 'a broken zone' '2026-11-25 01:02:03.123456789' "$(echo "$noon" | TZDIR=$room/zones localised Broken)"
is 'a folder' '2026-11-25 01:02:03.123456789' "$(echo "$noon" | localised "$room/zones")"
# Each growth of memory is refused in turn, if there is a C compiler: never is another zone shown, with status 0.
if command -v cc >/dev/null && cc -O1 -shared -fPIC -o faults.so "$top/tests/faults.c" -ldl 2>/dev/null; then
  for zone in Asia/Kolkata "$room/zones/Here" EST5EDT; do
    right=$(echo "$noon" | localised "$zone")
    for number in {1..60}; do
      rm -f met
      got=$(echo "$noon" | TZ=$zone FAULT=malloc:$number:12 FAULT_MET=met LD_PRELOAD=./faults.so timeout 120 "$program" tai64nlocal 2>reported)
      status=$?
      [ -e met ] || break
      [ "$status" = 0 ] && is "memory refused, $zone, $number" "$right" "$got"
      [ "$status" = 0 ] || is "memory refused, $zone, $number: reported" '111 dtools: OutOfMemory ' "$status $(cat reported) $got"
    done
    is "memory refused, $zone: growths were refused" yes "$([ "$number" -gt 1 ] && echo yes)"
  done
fi
is 'no TZ' "$(date -d @1795568523 '+%Y-%m-%d %H:%M:%S.123456789')" "$(echo "$noon" | "$program" tai64nlocal)"

# Labels: of the years 1900 to 9999, with any nanoseconds; no others.
becomes 'the first second' UTC "$(label -2208988800 0)\n" '1900-01-01 00:00:00.000000000\n'
becomes 'before it' UTC "$(label -2208988801 0)\n" "$(label -2208988801 0)\n"
becomes 'the last second' UTC "$(label 253402300799 999999999)\n" '9999-12-31 23:59:59.999999999\n'
becomes 'after it' UTC "$(label 253402300800 0)\n" "$(label 253402300800 0)\n"
becomes 'leap day' UTC "$(label 951782400 1)\n" '2000-02-29 00:00:00.000000001\n'
becomes 'no leap day' UTC "$(label 4107542400 0)\n" '2100-03-01 00:00:00.000000000\n'
becomes 'too many nanoseconds' UTC "$(label 1795568523 0xffffffff)\n" '2026-11-25 01:02:03.4294967295\n'
for line in @ '@\n' '@ x\n' '@@@\n' "@${noon}\n" " $noon\n" "x$noon\n" "${noon^^}\n" "${noon}0\n" "${noon}f x\n" \
  "${noon%?}\n" "${noon%?} x\n" "${noon%?}g\n" "${noon%?}" '@8000000000000000' '@800000000000000000000000\n' \
  '@ffffffffffffffffffffffff\n' '@000000000000000000000000\n' '' '\n' '\n\n' 'plain' 'plain\nlines\n' '\0\0\n\0' \
  '@\0\n' '\377\376\n' \
  "$(head -c 70000 /dev/zero | tr '\0' 0)\n" "@$(head -c 70000 /dev/zero | tr '\0' a)\n"; do
  becomes "stays: ${line:0:30}" UTC "$line" "$line"
done
time='2026-11-25 01:02:03.123456789'
becomes 'alone, without a newline' UTC "$noon" "$time"
becomes 'without a newline' UTC "$noon x" "$time x"
becomes 'a NUL behind it' UTC "$noon\0x\n" "$time\0x\n"
becomes 'an upper-case letter behind it' UTC "${noon}A\n" "${time}A\n"
becomes 'a label behind it' UTC "$noon$noon\n" "$time$noon\n"
becomes 'a label in the next line' UTC "$noon\n\n$noon\nx\n" "$time\n\n$time\nx\n"
long=$(head -c 300000 /dev/zero | tr '\0' x)
is 'a long line' "$time $long" "$(printf '%s %s' "$noon" "$long" | localised UTC)"

# In pieces: wherever a read ends; and a line is written before the next read.
text="$noon one\n$noon\n@\n${noon}0\n${noon%?}\nplain\n$noon"
slowly() { while IFS= read -rn1 -d '' byte; do printf '%s' "$byte"; sleep 0.001; done; }
is 'byte by byte' "$(printf "$text" | localised UTC)" "$(printf "$text" | slowly | localised UTC)"
{ echo; head -c 32750 /dev/zero | tr '\0' x; } >block
for more in {0..30}; do
  { cat block; head -c "$more" /dev/zero | tr '\0' y; printf '\n%s z\n%s' "$noon" "$noon"; } >input
  sed "s/$noon/$time/" input >wanted
  is "a label over the end of a block, $more" '' "$(localised UTC <input | cmp - wanted 2>&1)"
done
mkfifo waits
localised UTC <waits >shown &
exec 3>waits
printf '%s now\nfront of a line' "$noon" >&3
until_shown() {
  local looks
  for looks in {1..1200}; do [ "$(cat shown)" = "$1" ] && echo yes && return; sleep 0.05; done
  cat shown
}
is 'written before the next read' yes "$(until_shown "$time now
front of a line")"
exec 3>&-
wait

# Words and faults.
"$program" tai64nlocal word </dev/null >out 2>reported
is 'a word: status' 100 "$?"
is 'a word: reported' 'dtools: usage
dtools tai64nlocal' "$(cat reported)"
echo "$noon" | "$program" tai64nlocal >/dev/full 2>reported
is 'a full device: status' 111 "$?"
is 'a full device: reported' 'tai64nlocal: Write: No space left on device' "$(cat reported)"
"$program" tai64nlocal <. >out 2>reported
is 'a folder for the input: status' 111 "$?"
is 'a folder for the input: reported' 'tai64nlocal: Read: Is a directory' "$(cat reported)"
"$program" tai64nlocal <&- >out 2>reported
is 'a closed input: status' 111 "$?"
is 'a closed input: reported' 'tai64nlocal: Read: Bad file descriptor' "$(cat reported)"
localised UTC </dev/null >out
is 'no input: status' 0 "$?"
is 'no input: printed' '' "$(cat out)"

# Seconds of all these years, and a million lines, next to daemontools' if it is installed.
RANDOM=7
for number in {1..10000}; do
  second=$(((RANDOM << 30 | RANDOM << 15 | RANDOM) % 255611203200 - 2208902400))
  label $second $((RANDOM << 17 | RANDOM << 2 | RANDOM & 3))
  echo " line $number"
done >years
clock='[0-2][0-9]:[0-5][0-9]:[0-5][0-9]\.[0-9]\{9,10\}'
is 'all years: all have a time' 10000 \
  "$(localised UTC <years | grep -c "^[1-9][0-9]\{3\}-[01][0-9]-[0-3][0-9] $clock line [0-9]*$")"
for zone in UTC Europe/Berlin Asia/Kolkata America/New_York Australia/Lord_Howe Pacific/Apia Africa/Casablanca \
  America/St_Johns; do
  as_real "all years, $zone" "$zone" years
done
awk 'BEGIN {
  for (i = 0; i < 1000000; i++)
    printf "@40000000%08x%08x line %d of a log\n", 1774740000 + int(i / 100), i * 997 % 1000000000, i
}' >million
is 'a million lines' 1000000 "$(localised Europe/Berlin <million | grep -c "^2026-03-29 $clock line [0-9]* of a log$")"
as_real 'a million lines' Europe/Berlin million

# `trace --local`. The record of the base: 18 bytes, of process 4711, wanted up. 1774746002 is two seconds after the clocks
# of Berlin changed to summer.
record=$(label 1774745999 999999999)
{
  echo 'dtools-trace 1'
  echo "base 2 up ${record#@}671200000075 stay -"
  echo 'byte x'
  echo 'byte u'
  echo "death $(label 1774746002 7)"
  echo 'end 3'
} >trace

# traced ZONE [WORD..]: what is printed of it
traced() { TZ=$1 "$program" trace trace "${@:2}"; }

# reported BEFORE AFTER: what is to be printed with these times of the process's start and end
reported() {
  printf '%s\n' "1 byte x: took record (up 4711, wanted up, exiting, since $1) -> up" \
    "2 byte u: took record (up 4711, wanted up, exiting, since $1) -> up" \
    "3 death $2: took record (down, wanted up, exiting, since $2) -> gone" \
    "state gone (down, wanted up, exiting, since $2)"
}
is 'trace: UTC' "$(reported '2026-03-29 00:59:59.999999999' '2026-03-29 01:00:02.000000007')" "$(traced UTC --local)"
is 'trace: Berlin' "$(reported '2026-03-29 01:59:59.999999999' '2026-03-29 03:00:02.000000007')" \
  "$(traced Europe/Berlin --local)"
is 'trace: half an hour' "$(reported '2026-03-29 06:29:59.999999999' '2026-03-29 06:30:02.000000007')" \
  "$(traced Asia/Kolkata --local)"
is 'trace: a break' 'break 3' "$(traced Asia/Kolkata --local --break phase:gone)"
is 'trace: without the flag as ever' "$(traced UTC)" "$(traced Asia/Kolkata)"

# The folder of a service: its trace is meant; and what can't be read, with the cause.
mkdir -p web/supervise none
cp trace web/supervise/trace
is 'trace: of a service' "$(traced UTC)" "$(TZ=UTC "$program" trace web)"
is 'trace: of a service, with a slash' 'break 3' "$("$program" trace web/ --break phase:gone)"
"$program" trace none 2>reported
is 'trace: of a service without one' '111 trace: unable to read none/supervise/trace: No such file or directory' "$? $(cat reported)"
"$program" trace nosuch 2>reported
is 'trace: of no service' '111 trace: unable to read nosuch: No such file or directory' "$? $(cat reported)"
"$program" trace trace/x 2>reported
is 'trace: below a file' '111 trace: unable to read trace/x: Not a directory' "$? $(cat reported)"
counts local

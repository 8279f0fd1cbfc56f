#!/usr/bin/env bash
# What `dtools why` says of services, over folders that are made here: status records and traces of given bytes, and sockets
# at which python3 listens. Runs the program that the first word names. The wanted sentences are written by hand from the
# rules in the doc of `why_line` (crates/cmd_why/src/sentences.rt), the pictures from those of `bar_of` (src/timeline.rt), the
# records and traces from docs/FORMATS.md.
# gate: 30 seconds, needs cc python3
tests=$(dirname "$(realpath "$0")")
. "$tests/checks.sh" "$1"
export TZ=UTC
trap leave EXIT

# Moments are seconds after `start`, 100 seconds ago, with up to nine places: 90.5 is a half second after the 90th.
# digits MOMENT: those of its label
digits() {
  local second=${1%.*} places=000000000
  [[ $1 == *.* ]] && places=${1#*.}000000000
  printf '%016x%08x' $((4611686018427387914 + start + second)) $((10#${places:0:9}))
}

# record MOMENT NUMBER PAUSED WANT [EXITING PHASE]: the digits of a record, of 18 bytes or of 20
record() {
  local number
  number=$(printf '%08x' "$2")
  printf '%s%s%s%s%s%s%s' "$(digits "$1")" "${number:6:2}" "${number:4:2}" "${number:2:2}" "${number:0:2}" "0$3" "$4"
  [ $# -gt 4 ] && printf '0%s0%s' "$5" "$6"
}
up=75 down=64 once=00

# status MOMENT NUMBER PAUSED WANT [EXITING PHASE]: writes it for s
status() { bytes "$(record "$@")" >s/supervise/status; }

# trace FOLDED PHASE RECORD UNTIL ENTRIES..: writes a trace for s; an entry is an event's line whose label is a moment
trace() {
  local folded=$1 phase=$2 before=$3 until=$4 entry
  shift 4
  [ "$until" = - ] || until=@$(digits "$until")
  {
    printf 'dtools-trace 1\nbase %s %s %s stay %s\n' "$folded" "$phase" "$before" "$until"
    for entry; do
      case $entry in
        byte*) echo "$entry" ;;
        *) echo "${entry% *} @$(digits "${entry##* }")" ;;
      esac
    done
    echo "end $#"
  } >s/supervise/trace
}

# said NAME STATUS LINE [FOLDER [REPORTED]]: what is said; {M} is the local time of the moment M, and how long ago that was
said() {
  local name=$1 wanted_status=$2 line=$3 folder=${4-s} missing=${5-} before got_status moment time found=no second
  before=$(date +%s)
  timeout 60 "$program" why "$folder" >out 2>reported </dev/null
  got_status=$?
  is "$name: status" "$wanted_status" "$got_status"
  is "$name: reported" "$missing" "$(cat reported)"
  moment=$(printf '%s' "$line" | sed -n 's/.*{\([0-9]*\)}.*/\1/p')
  if [ -n "$moment" ]; then
    time=$(date -u -d "@$((start + moment))" '+%Y-%m-%d %H:%M:%S')
    for second in $(seq "$before" "$(date +%s)"); do
      [ "$(cat out)" = "${line/"{$moment}"/"$time ($((second - start - moment)) s)"}" ] && found=yes
    done
    [ $found = yes ] || is "$name" "${line/"{$moment}"/"$time (..)"}" "$(cat out)"
    checked=$((checked + 1))
  else
    is "$name" "$line" "$(cat out)"
  fi
}

# again: the present is moment 100 again
again() { start=$(($(date +%s) - 100)); }

again
listen s

# Records alone, of both lengths.
status 88 4711 0 $up
said 'up' 0 's is up since {88}, process 4711.'
status 88 4711 0 $up 0 3
said 'up: 20 bytes' 0 's is up since {88}, process 4711.'
status 88 4711 1 $down 1 3
said 'paused, wanted down, exiting' 0 's is up since {88}, process 4711, paused, wanted down, and supervise is to end.'
status 88 4711 0 $once
said 'once' 0 's is up since {88}, process 4711, wanted once.'
status 88 4711 0 $up 0 1
said 'settling' 0 's is up since {88}, process 4711, settling after its start.'
status 88 0 0 $down
said 'down' 0 's is down since {88}, normally up.'
status 88 0 0 $up 0 0
said 'starting' 0 's is down since {88}, being started, wanted up, normally up.'
status 88 0 0 $up 0 2
said 'resting' 0 's is down since {88}, resting after a failed start, wanted up, normally up.'
status 88 0 0 $down 1 5
said 'gone' 0 's is down since {88}, normally up, and supervise is gone.'
: >s/down
status 88 0 0 $down 0 4
said 'down: a file down' 0 's is down since {88}.'
status 88 4711 0 $up
said 'up: a file down' 0 's is up since {88}, process 4711, normally down.'
rm s/down

# Times that no calendar reports.
bytes 000000000000000000000000671200000075 >s/supervise/status
timeout 60 "$program" why s >out
is 'long ago' 's is up since @000000000000000000000000 (' "$(grep -o '^s is up since @[0-9a-f]* (' out)"
bytes 7fffffffffffffff3b9ac9ff671200000075 >s/supervise/status
timeout 60 "$program" why s >out
is 'at the end of all labels' 's is up since @7fffffffffffffff3b9ac9ff (0 s), process 4711.' "$(cat out)"
bytes 400000003a4fc88a00000000671200000075 >s/supervise/status
timeout 60 "$program" why s >out
is 'the first second of 2001' 's is up since 2001-01-01 00:00:00 (' "$(grep -o '^s is up since [^(]*(' out)"
bytes 400000003c30fc0900000000671200000075 >s/supervise/status
timeout 60 "$program" why s >out
is 'the last second of 2001' "s is up since $(date -u -d @$((0x3c30fc09 - 10)) '+%F %T') (" "$(grep -o '^s is up since [^(]*(' out)"
for day in 2000-02-28 2000-02-29 2000-03-01 2024-12-31 2025-01-01 2100-02-28 2100-03-01 9999-12-31 1970-01-01; do
  bytes "$(printf '%016x00000000671200000075' $((4611686018427387914 + $(date -u -d "$day 23:59:58" +%s))))" >s/supervise/status
  timeout 60 "$program" why s >out
  is "the day $day" "s is up since $day 23:59:58 (" "$(grep -o '^s is up since [^(]*(' out)"
done

# What a trace says next to a record that it leads to. Supervise began at the moment 1, and asked for a start.
again
begun=$(record 1 0 0 $up)
status 90 4711 0 $up 0 3
trace 0 starting "$begun" - 'started 4711 90' 'clock 91'
said 'a first start' 0 's is up since {90}, process 4711. 1 start in the last 60 s.'
trace 0 starting "$begun" - 'started 4711 90' 'clock 91' 'byte t'
said 'sent t' 0 's is up since {90}, process 4711. It was sent TERM (t). 1 start in the last 60 s.'
trace 0 starting "$begun" - 'started 4711 90' 'clock 91' 'byte t' 'byte 1' 'byte u' 'byte x' 'byte 0a'
said 'the last signal' 0 's is up since {90}, process 4711. It was sent USR1 (1). 1 start in the last 60 s.'
status 90 4711 1 $up 0 3
trace 0 starting "$begun" - 'started 4711 90' 'clock 91' 'byte p'
said 'paused' 0 's is up since {90}, process 4711, paused. It was sent STOP (p). 1 start in the last 60 s.'
status 90 4711 0 $down 0 3
trace 0 starting "$begun" - 'started 4711 90' 'clock 91' 'byte d'
said 'd, and still up' 0 's is up since {90}, process 4711, wanted down. It was sent TERM (d). 1 start in the last 60 s.'
status 90 4711 0 $up 0 3
trace 0 starting "$begun" - 'started 4710 86.25' 'clock 87.25' 'death 89.3' 'started 4711 90' 'clock 91'
said 'after a death by itself' 0 's is up since {90}, process 4711. Before it process 4710 ran 3.0 s and ended without a control byte. 2 starts in the last 60 s.'
trace 0 starting "$begun" - 'started 4710 86.25' 'clock 87.25' 'byte t' 'death 89.349999999' 'started 4711 90' 'clock 91' 'byte h'
said 'after t' 0 's is up since {90}, process 4711. It was sent HUP (h). Before it process 4710 ran 3.0 s and ended after TERM (t). 2 starts in the last 60 s.'
trace 0 starting "$begun" - 'started 4710 86' 'clock 87' 'byte d' 'death 89' 'byte u' 'started 4711 90'
said 'd, and u again' 0 's is up since {90}, process 4711. Before it process 4710 ran 3.0 s and ended after TERM (d). 2 starts in the last 60 s.'

# Down.
status 88 0 0 $down 0 4
trace 0 starting "$begun" - 'started 11261 85' 'clock 86' 'byte d' 'death 88'
said 'brought down' 0 's is down since {88}, normally up. It was brought down (d). Process 11261 ran 3.0 s and ended after TERM (d). 1 start in the last 60 s.'
trace 0 starting "$begun" - 'started 11261 85' 'clock 86' 'byte d' 'byte k' 'death 88' 'byte t'
said 'd and k' 0 's is down since {88}, normally up. It was brought down (d). Process 11261 ran 3.0 s and ended after KILL (k). 1 start in the last 60 s.'
trace 0 starting "$begun" - 'started 11261 85' 'clock 86' 'byte d' 'byte u' 'byte o' 'death 88' 'byte d'
said 'd, u, o; and d when it was down' 0 's is down since {88}, normally up. It was to run once (o). Process 11261 ran 3.0 s and ended after TERM (d). 1 start in the last 60 s.'
status 88 0 0 $once 0 4
trace 0 starting "$begun" - 'started 11261 85' 'clock 86' 'byte o' 'death 88'
said 'once' 0 's is down since {88}, normally up. It was to run once (o). Process 11261 ran 3.0 s and ended. 1 start in the last 60 s.'
: >s/down
status 1 0 0 $down 0 4
trace 0 down "$(record 1 0 0 $down)" -
said 'down from the beginning' 0 's is down since {1}. It has not run since supervise began.'
trace 3 down "$(record 1 0 0 $down)" -
said 'down, and a trace that does not reach back' 0 's is down since {1}.'
rm s/down
status 1 0 0 $up 0 2
trace 0 starting "$begun" - 'failed 99'
said 'a failed start' 0 's is down since {1}, resting after a failed start, wanted up, normally up. Its last start failed. It has not run since supervise began.'
# The start of the process, and d, were folded: what the entries do not have is not said.
status 88 0 0 $down 0 4
trace 9 up "$(record 85 11261 0 $down)" - 'death 88'
said 'd is folded' 0 's is down since {88}, normally up. Process 11261 ran 3.0 s and ended.'

# How it ended: if its file exit is about the process and the time that the trace has.
# ended_so WORDS..: writes how the last process of s ended; MOMENT is when
ended_so() { printf '%s @%s\n' "$1" "$(digits "$2")" >s/supervise/exit; }
again
status 88 0 0 $down 0 4
trace 0 starting "$begun" - 'started 11261 85' 'clock 86' 'byte d' 'death 88'
ended_so '11261 signal TERM' 88
said 'by a signal' 0 's is down since {88}, normally up. It was brought down (d). Process 11261 ran 3.0 s and ended by SIGTERM after TERM (d). 1 start in the last 60 s.'
ended_so '11261 signal 35' 88
said 'by a signal without a name' 0 's is down since {88}, normally up. It was brought down (d). Process 11261 ran 3.0 s and ended by signal 35 after TERM (d). 1 start in the last 60 s.'
ended_so '11261 status 0' 88
said 'with status 0' 0 's is down since {88}, normally up. It was brought down (d). Process 11261 ran 3.0 s and ended with status 0 after TERM (d). 1 start in the last 60 s.'
ended_so '11261 status 255' 88
said 'with status 255' 0 's is down since {88}, normally up. It was brought down (d). Process 11261 ran 3.0 s and ended with status 255 after TERM (d). 1 start in the last 60 s.'
unreported='s is down since {88}, normally up. It was brought down (d). Process 11261 ran 3.0 s and ended after TERM (d). 1 start in the last 60 s.'
ended_so '11261 unknown' 88
said 'unknown' 0 "$unreported"
ended_so '11262 signal TERM' 88
said 'of another process' 0 "$unreported"
ended_so '11261 signal TERM' 87
said 'of another time' 0 "$unreported"
for words in '11261 status 256' '11261 status 03' '11261 signal SIGTERM' '011261 signal TERM' '11261  signal TERM' '11261 signal' ''; do
  ended_so "$words" 88
  said "no line of an exit: $words" 0 "$unreported"
done
printf '11261 signal TERM @%s' "$(digits 88)" >s/supervise/exit
said 'without its newline' 0 "$unreported"
printf '11261 signal TERM @%s\n\n' "$(digits 88)" >s/supervise/exit
said 'with two' 0 "$unreported"
head -c 1000000 /dev/zero >s/supervise/exit
said 'a long file' 0 "$unreported"
rm s/supervise/exit
mkdir s/supervise/exit
said 'a folder' 0 "$unreported"
rmdir s/supervise/exit
mkfifo s/supervise/exit
said 'a pipe' 0 "$unreported"
rm s/supervise/exit
status 90 4711 0 $up 0 3
trace 0 starting "$begun" - 'started 4710 86.25' 'clock 87.25' 'death 89.3' 'started 4711 90' 'clock 91'
ended_so '4710 status 1' 89.3
said 'the one before' 0 's is up since {90}, process 4711. Before it process 4710 ran 3.0 s and ended with status 1 without a control byte. 2 starts in the last 60 s.'
rm s/supervise/exit

# The clock is read once the trace was: here it is 1000 seconds later then.
again
cc -O1 -shared -fPIC -o devices.so "$tests/devices.c" -ldl || exit 1
status 90 4711 0 $up 0 3
trace 0 starting "$begun" - 'started 4711 90' 'clock 91'
timeout 60 env LD_PRELOAD="$room/devices.so" CLOCK=$((start + 100)) CLOCK_OPENS=/supervise/trace "$program" why s >out
is 'the clock after the trace' "s is up since $(date -u -d "@$((start + 90))" '+%F %T') (1010 s), process 4711." \
  "$(grep -o '^s is up since [^(]*([0-9]* s), process 4711\.' out)"

# The last end of a process is the later one of that in the trace and that in the file exit.
again
status 90 4712 0 $up 0 3
trace 0 starting "$begun" - 'started 4710 86' 'clock 87' 'death 88'
ended_so '4711 status 3' 89
said 'a trace that lags' 0 's is up since {90}, process 4712. Before it process 4711 ended with status 3. At least 1 start in the last 60 s.'
status 90 0 0 $up 0 0
ended_so '4711 status 3' 90
said 'at once after a death' 0 's is down since {90}, being started, wanted up, normally up. Process 4711 ended with status 3. At least 1 start in the last 60 s.'
ended_so '4711 unknown' 90
said 'at once after a death, unknown' 0 's is down since {90}, being started, wanted up, normally up. Process 4711 ended. At least 1 start in the last 60 s.'
status 91 4712 0 $up 0 3
trace 0 starting "$begun" - 'started 4711 86' 'clock 87' 'death 90'
ended_so '4711 status 3' 90
said 'a trace that lags by a start' 0 's is up since {91}, process 4712. Before it process 4711 ran 4.0 s and ended with status 3 without a control byte. At least 1 start in the last 60 s.'
ended_so '4710 status 3' 85
said 'an exit that lags' 0 's is up since {91}, process 4712. Before it process 4711 ran 4.0 s and ended without a control byte. At least 1 start in the last 60 s.'
rm s/supervise/exit
said 'no exit, and a trace that lags' 0 's is up since {91}, process 4712. At least 1 start in the last 60 s.'
# Put down long ago, and the trace is of a later svscan, or gone.
status 50 0 0 $down 0 4
trace 0 down "$(record 50 0 0 $down)" -
ended_so '4711 status 0' 1
said 'an end before the trace' 0 's is down since {50}, normally up. Process 4711 ended with status 0. It has not run since supervise began.'
rm s/supervise/trace
said 'an end, and no trace' 0 's is down since {50}, normally up. Process 4711 ended with status 0.'
ended_so '4711 signal KILL' 50
said 'an end by a signal, and no trace' 0 's is down since {50}, normally up. Process 4711 ended by SIGKILL.'
# It ended after its record was read.
status 90 4711 0 $up 0 3
ended_so '4711 status 3' 91
said 'an end after the record' 0 's is up since {90}, process 4711. Process 4711 ended with status 3.'
: >s/finish
said 'and it has a finish' 0 's is up since {90}, process 4711. Process 4711 ended with status 3. Its finish runs.'
ended_so '4712 status 3' 91
said 'an end of another process' 0 's is up since {90}, process 4711. Process 4712 ended with status 3.'
ended_so '4711 status 3' 89
said 'an end before the start' 0 's is up since {90}, process 4711. Before it process 4711 ended with status 3.'
rm s/finish
rm s/supervise/exit

# Starts: those of the last 60 seconds, 5 or more of which are flapping.
again
crash() { printf '%s\n' "started $1 $2" "clock $(($2 + 1))" "death $(($2 + 1))"; }
status 90 0 0 $up 0 0
mapfile -t entries < <(for start_at in 20 50 60 70 80 89; do crash $((4700 + start_at)) $start_at; done)
trace 0 starting "$begun" - "${entries[@]}"
said 'flapping: five' 0 's is down since {90}, being started, wanted up, normally up. Process 4789 ran 1.0 s and ended without a control byte. It is flapping: 5 starts in the last 60 s.'
mapfile -t entries < <(for start_at in 20 60 70 80 89; do crash $((4700 + start_at)) $start_at; done)
trace 0 starting "$begun" - "${entries[@]}"
said 'four are not flapping' 0 's is down since {90}, being started, wanted up, normally up. Process 4789 ran 1.0 s and ended without a control byte. 4 starts in the last 60 s.'
# Starts that an operator asked for are none that flap: there is a control byte since the start before.
asked() { printf '%s\n' "started $1 $2" "clock $(($2 + 1))" 'byte t' "death $(($2 + 2))"; }
mapfile -t entries < <(for start_at in 50 60 65 70 75 80; do asked $((4700 + start_at)) $start_at; done; crash 4789 89)
trace 0 starting "$begun" - "${entries[@]}"
said 'restarts that were asked for are not flapping' 0 's is down since {90}, being started, wanted up, normally up. Process 4789 ran 1.0 s and ended without a control byte. 7 starts in the last 60 s.'
mapfile -t entries < <(asked 4740 40; for start_at in 50 60 65 70 75 89; do crash $((4700 + start_at)) $start_at; done)
trace 0 starting "$begun" - "${entries[@]}"
said 'one of six was asked for' 0 's is down since {90}, being started, wanted up, normally up. Process 4789 ran 1.0 s and ended without a control byte. It is flapping: 6 starts in the last 60 s.'
# Events before the entries were folded: if the machine before them is of the last 60 seconds, there may be more.
mapfile -t entries < <(for start_at in 60 70 80 89; do crash $((4700 + start_at)) $start_at; done)
trace 7 starting "$(record 55 0 0 $up)" - "${entries[@]}"
said 'folded lately' 0 's is down since {90}, being started, wanted up, normally up. Process 4789 ran 1.0 s and ended without a control byte. At least 4 starts in the last 60 s.'
trace 7 starting "$(record 5 0 0 $up)" - "${entries[@]}"
said 'folded long ago' 0 's is down since {90}, being started, wanted up, normally up. Process 4789 ran 1.0 s and ended without a control byte. 4 starts in the last 60 s.'
again
status 30 4711 0 $up
trace 0 starting "$begun" - 'started 4711 30' 'clock 31'
said 'long up' 0 's is up since {30}, process 4711.'

# A trace that does not lead to the record: of the record's moment only the record says, and starts are reported at least.
status 95 4712 0 $up 0 1
trace 0 starting "$begun" - 'started 4710 86' 'clock 87' 'byte t' 'death 89' 'started 4711 90' 'clock 91' 'byte k'
said 'a trace of a moment before' 0 's is up since {95}, process 4712, settling after its start. At least 2 starts in the last 60 s.'
status 90 0 0 $down 0 4
said 'a trace of another state' 0 's is down since {90}, normally up. At least 2 starts in the last 60 s.'
status 90 4712 0 $up 0 3
said 'a trace of another process' 0 's is up since {90}, process 4712. At least 2 starts in the last 60 s.'
mapfile -t entries < <(for start_at in 50 60 70 80 89; do crash $((4700 + start_at)) $start_at; done)
trace 0 starting "$begun" - "${entries[@]}"
said 'flapping at least' 0 's is up since {90}, process 4712. It is flapping: at least 5 starts in the last 60 s.'
# Bytes that came since the trace are not reported, and those that it has are.
status 90 4711 1 $down 0 3
trace 0 starting "$begun" - 'started 4711 90' 'clock 91' 'byte h'
said 'a trace before p and d' 0 's is up since {90}, process 4711, paused, wanted down. It was sent HUP (h). 1 start in the last 60 s.'
# A start that is still to come, by its label.
status 200 4711 0 $up 0 3
trace 0 starting "$begun" - 'started 4711 200' 'clock 201'
timeout 60 "$program" why s >out
is 'a start to come' "s is up since $(date -u -d "@$((start + 200))" '+%F %T') (0 s), process 4711." "$(cat out)"

# Timelines. The picture begins at the moment 0, which is 80 hours ago: a column is an hour, and the little that this script
# takes. What happens does so at half past an hour.
past() { echo $(($1 * 3600 + 1800 + ${2-0})); }
# many COUNT SIGN
many() { printf "%$1s" '' | tr ' ' "$2"; }
# drawn NAME COUNT SIGN [COUNT SIGN]..: so many columns with that sign, one after the other
drawn() {
  local name=$1 bar=
  shift
  while [ $# -gt 0 ]; do
    bar+=$(many "$1" "$2")
    shift 2
  done
  timeout 60 "$program" why --timeline s >out 2>reported </dev/null
  is "$name: status" 0 "$?"
  is "$name: reported" '' "$(cat reported)"
  is "$name: lines" 3 "$(wc -l <out)"
  is "$name: its line" 's is ' "$(head -c 5 out)"
  is "$name" "$bar" "$(sed -n 2p out)"
  is "$name: scale" "$(date -u -d "@$start" '+%F %T')$(many 58 ' ')now" "$(sed -n 3p out)"
}
start=$(($(date +%s) - 80 * 3600))
begun=$(record 0 0 0 $up)
status "$(past 0)" 4711 0 $up 0 3
trace 0 starting "$begun" - "started 4711 $(past 0)" "clock $(past 0 1)"
drawn 'up' 1 + 79 '#'
status "$(past 40 1)" 4712 0 $up 0 3
trace 0 starting "$begun" - "started 4711 $(past 0)" "clock $(past 0 1)" 'byte t' "death $(past 40)" "started 4712 $(past 40 1)" \
  "clock $(past 40 2)"
drawn 'a restart' 1 + 39 '#' 1 + 39 '#'
entries=("started 4711 $(past 0)" "clock $(past 0 1)")
for hour in $(seq 50 79); do
  entries+=("death $(past "$hour")" "started $((4700 + hour)) $(past "$hour" 1)" "clock $(past "$hour" 2)")
done
status "$(past 79 1)" 4779 0 $up 0 3
trace 0 starting "$begun" - "${entries[@]}"
drawn 'flapping' 1 + 49 '#' 30 +
status "$(past 20)" 0 0 $down 0 4
trace 0 starting "$begun" - "started 4711 $(past 0)" "clock $(past 0 1)" 'byte d' "death $(past 20)" 'byte h'
drawn 'brought down' 1 + 19 '#' 1 + 59 .
status "$(past 60)" 4711 0 $up 0 3
trace 0 down "$(record 0 0 0 $down)" - 'byte u' "started 4711 $(past 60)" "clock $(past 60 1)"
drawn 'brought up' 60 . 1 + 19 '#'
# Control bytes have no time: a process that was paused is shown so from one label to the next.
status "$(past 20 1)" 4712 1 $up 0 3
trace 0 starting "$begun" - "started 4711 $(past 0)" "clock $(past 0 1)" "death $(past 20)" "started 4712 $(past 20 1)" \
  "clock $(past 20 2)" 'byte h' 'byte p'
drawn 'paused' 1 + 19 '#' 1 + 59 =
status "$(past 20 1)" 4712 0 $up 0 3
trace 0 starting "$begun" - "started 4711 $(past 0)" "clock $(past 0 1)" 'byte p' "death $(past 20)" "started 4712 $(past 20 1)" \
  "clock $(past 20 2)" 'byte h'
drawn 'paused before its death' 1 + 19 = 1 + 59 '#'
trace 0 starting "$begun" - "started 4711 $(past 0)" "clock $(past 0 1)" "death $(past 20)" "started 4712 $(past 20 1)" \
  "clock $(past 20 2)" 'byte p' 'byte c'
drawn 'paused and continued' 1 + 19 '#' 1 + 59 =
# Attempts, whose second is taken to last until the clock is read.
status "$(past 40 1)" 4711 0 $up 0 3
trace 0 starting "$begun" - "failed $(past 10)" "clock $(past 40)" "started 4711 $(past 40 1)" "clock $(past 70)"
drawn 'attempts' 10 . 1 + 29 '*' 1 + 29 '*' 1 + 9 '#'
# Of the machine before the entries only its process is reported.
status 0 0 0 $down 0 4
trace 3 down "$(record 0 0 0 $down)" -
drawn 'no entries' 80 .
status 0 4711 1 $up 0 3
trace 7 up "$(record 0 4711 1 $up)" - 'byte h'
drawn 'paused before the entries' 80 =
status 0 4711 0 $up 0 3
trace 7 settling "$(record 0 4711 0 $up)" 1 "clock $(past 0)"
drawn 'started before the entries' 80 '#'
status "$(past 10 1)" 4711 0 $up 0 3
trace 7 resting "$begun" "$(past 9)" "clock $(past 10)" "started 4711 $(past 10 1)" "clock $(past 10 2)"
drawn 'failed before the entries' 10 . 1 + 69 '#'
# Clocks that were set back: what counts is the label in front, and the clock of now.
status "$(past 11)" 4712 0 $up 0 3
trace 0 starting "$begun" - "started 4711 $(past 40)" "clock $(past 40 1)" "death $(past 10)" "started 4712 $(past 11)" \
  "clock $(past 50)"
drawn 'set back' 40 . 1 + 9 '*' 1 + 29 '#'
status 300000 0 0 $down 0 4
trace 0 starting "$begun" - "started 4711 $(past 0)" "clock $(past 0 1)" 'byte d' 'death 300000'
drawn 'a death to come' 1 + 78 '#' 1 +
status 300000 4711 0 $up 0 3
trace 0 starting "$(record 290000 0 0 $up)" - 'started 4711 300000' 'clock 300001'
before=$(date +%s)
timeout 60 "$program" why --timeline s >out
is 'all to come' "$(many 80 '#')" "$(sed -n 2p out)"
found=no
for second in $(seq "$before" "$(date +%s)"); do
  [ "$(sed -n 3p out)" = "$(date -u -d "@$second" '+%F %T')$(many 58 ' ')now" ] && found=yes
done
is 'all to come: scale' yes "$found"
# A trace that does not lead to the record says nothing of what is after its last label.
status "$(past 70)" 4799 0 $up 0 3
trace 0 starting "$begun" - "started 4711 $(past 0)" "clock $(past 0 1)" "death $(past 60)" "started 4712 $(past 60 1)" \
  "clock $(past 60 2)" 'byte h'
drawn 'another process' 1 + 59 '#' 1 + 19 '?'
status "$(past 79 1)" 4779 0 $up 0 3
trace 0 starting "$begun" - "${entries[@]:0:86}"
drawn 'flapping, and a start later' 1 + 49 '#' 28 + 2 '?'
trace 0 starting "$begun" -
drawn 'no entries that lead there' 80 '?'
unreported='No timeline: it has no trace that can be read.'
rm s/supervise/trace
timeout 60 "$program" why --timeline s >out
is 'a timeline of no trace' "$unreported" "$(sed -n '2,$p' out)"
again
begun=$(record 1 0 0 $up)

# Traces that can't be read.
status 90 4711 0 $up 0 3
plain='s is up since {90}, process 4711.'
trace 0 starting "$begun" - 'started 4711 90' 'clock 91' 'byte t'
cp s/supervise/trace whole
for size in 0 1 14 15 60 $(($(stat -c %s whole) - 6)) $(($(stat -c %s whole) - 1)); do
  head -c "$size" whole >s/supervise/trace
  said "a trace cut at $size" 0 "$plain"
done
{ cat whole; echo; } >s/supervise/trace
said 'a trace and more' 0 "$plain"
sed 's/byte t/byte tt/' whole >s/supervise/trace
said 'a trace with a bad line' 0 "$plain"
sed 's/^clock .*/death @4000000000000000000000ff/' whole >s/supervise/trace
said 'a trace with an event that is not taken' 0 "$plain"
head -c 1000 /dev/urandom >s/supervise/trace
said 'a trace of any bytes' 0 "$plain"
rm s/supervise/trace
said 'no trace' 0 "$plain"
mkfifo s/supervise/trace
said 'a trace that is a pipe' 0 "$plain"
rm s/supervise/trace
mkdir s/supervise/trace
said 'a trace that is a folder' 0 "$plain"
rmdir s/supervise/trace
head -c 30000000 /dev/zero >s/supervise/trace
said 'a trace without an end' 0 "$plain"
rm s/supervise/trace

# Services that can't be read.
for row in "Length|" "Length|$(record 90 4711 0 $up)00" "WantByte|$(record 90 4711 0 78)" "PhaseNumber|$(record 90 4711 0 $up 0 6)" \
  "NoSuchState|$(record 90 4711 0 $up 0 4)" "PausedNoProcess|$(record 90 0 1 $up)" "ExitingFlag|$(record 90 4711 0 $up 2 3)" \
  "BadLabel|40000000000000003b9aca00671200000075" "PausedFlag|$(record 90 4711 2 $up)"; do
  IFS='|' read -r kind hex <<<"$row"
  bytes "$hex" >s/supervise/status
  said "a bad record: $kind" 111 "s is supervised, but its status is no record: $kind."
done
rm s/supervise/status
said 'no status' 111 "s is supervised, but its status can't be read."
mkdir -p dead/supervise empty closed
python3 -c 'import socket; s = socket.socket(socket.AF_UNIX); s.bind("dead/supervise/ok")'
said 'no such folder' 111 'nosuch is not supervised: there is no such folder.' nosuch 'why: nosuch: No such file or directory'
said 'an empty folder' 0 'empty is not supervised: nothing accepts connections at its supervise/ok.' empty
said 'a dead socket' 0 'dead is not supervised: nothing accepts connections at its supervise/ok.' dead
: >file
said 'a file' 111 'file is not supervised: there is no such folder.' file 'why: file: Not a directory'
ln -s self self
said 'a folder that can not be looked at' 111 "self can't be reached." self 'why: self: Too many levels of symbolic links'
mkdir -p full/supervise
python3 -c '
import socket, time
door = socket.socket(socket.AF_UNIX)
door.bind("full/supervise/ok")
door.listen(0)
first = socket.socket(socket.AF_UNIX)
first.connect("full/supervise/ok")
open("full/supervise/listens", "w").close()
time.sleep(600)
' &
listeners+=($!)
for _ in $(seq 1500); do [ -e full/supervise/listens ] && break; sleep 0.02; done
said 'a full queue' 111 "full can't be reached." full
# As another user, if this one may be that.
if [ "$(id -u)" = 0 ] && command -v setpriv >/dev/null; then
  chmod 711 . s
  chmod 700 s/supervise
  cp "$program" /tmp/why.$$ && chmod 755 /tmp/why.$$
  setpriv --reuid=65534 --regid=65534 --clear-groups /tmp/why.$$ why s >out
  is 'no permission: status' 111 "$?"
  is 'no permission' "s can't be reached: no permission." "$(cat out)"
  rm -f /tmp/why.$$
fi

# Names of folders.
for name in 'a b' '%s%n' '*' "it's" $'two\nlines' 'ä€' '-x' '$HOME' '{x}' "$(printf 'n%.0s' $(seq 200))"; do
  case $name in -*) listen "./$name" ;; *) listen "$name" ;; esac
  bytes 7fffffffffffffff3b9ac9ff671200000075 >"./$name/supervise/status"
  said "the name $name" 0 "${name//$'\n'/\\x0a} is up since @7fffffffffffffff3b9ac9ff (0 s), process 4711." "$name"
done
bytes 7fffffffffffffff3b9ac9ff671200000075 >s/supervise/status
long=$room/$(printf 'n%.0s' $(seq 200))
said 'a long path' 0 "$long is up since @7fffffffffffffff3b9ac9ff (0 s), process 4711." "$long"
far=$(printf '/%.0s' $(seq 5000))
said 'a path beyond all' 111 "$far can't be reached." "$far" "why: $far: File name too long"
said 'no name' 111 ' is not supervised: there is no such folder.' '' 'why: : No such file or directory'

# Words.
reported() {
  is "$1: status" "$2" "$status"
  is "$1: printed" "$3" "$(cat out)"
  is "$1: reported" "$4" "$(cat reported)"
}
timeout 60 "$program" why >out 2>reported </dev/null
status=$?
reported 'no words' 0 '' ''
timeout 60 "$program" why s nosuch -x empty >out 2>reported </dev/null
status=$?
reported 'in order' 111 's is up since @7fffffffffffffff3b9ac9ff (0 s), process 4711.
nosuch is not supervised: there is no such folder.
-x is up since @7fffffffffffffff3b9ac9ff (0 s), process 4711.
empty is not supervised: nothing accepts connections at its supervise/ok.' 'why: nosuch: No such file or directory'
timeout 60 "$program" why --timeline >out 2>reported </dev/null
status=$?
reported 'a timeline of nothing' 0 '' ''
timeout 60 "$program" why --timeline s nosuch -x >out 2>reported </dev/null
status=$?
reported 'timelines in order' 111 "s is up since @7fffffffffffffff3b9ac9ff (0 s), process 4711.
$unreported
nosuch is not supervised: there is no such folder.
-x is up since @7fffffffffffffff3b9ac9ff (0 s), process 4711.
$unreported" 'why: nosuch: No such file or directory'
timeout 60 "$program" why empty --timeline >out 2>reported </dev/null
status=$?
reported 'a service of that name' 111 'empty is not supervised: nothing accepts connections at its supervise/ok.
--timeline is not supervised: there is no such folder.' 'why: --timeline: No such file or directory'
timeout 60 "$program" why --timeline s >/dev/full 2>reported </dev/null
status=$?
: >out
reported 'a full device for a timeline' 111 '' 'why: write fault: No space left on device'
# A word that is no text names no service: it is shown escaped, with the zero byte that no name has, and the others are
# shown as ever.
timeout 60 "$program" why $'bad\xff' s >out 2>reported </dev/null
status=$?
tr -d '\0' <reported >reported.text && mv reported.text reported
reported 'a word that is no text' 111 "bad\\xff\\x00 can't be reached.
s is up since @7fffffffffffffff3b9ac9ff (0 s), process 4711." 'why: bad\xff: Invalid argument'
timeout 60 "$program" why s >/dev/full 2>reported </dev/null
status=$?
: >out
reported 'a full device' 111 '' 'why: write fault: No space left on device'

# A service that ends at once, under svscan: each look names its last end, at whatever moment it comes: the one that the file
# exit has before the look, or after it, or one between them.
mkdir -p scanned/flap
printf '#!/bin/sh\necho $$ >>numbers\nexit 3\n' >scanned/flap/run
chmod +x scanned/flap/run
"$program" svscan scanned >/dev/null 2>&1 </dev/null &
listeners+=($!)
for _ in $(seq 1200); do [ -e scanned/flap/supervise/exit ] && break; sleep 0.05; done
last_end() { cut -d ' ' -f 1 scanned/flap/supervise/exit; }
named=0
for look in $(seq 60); do
  before=$(last_end)
  line=$(timeout 60 "$program" why scanned/flap)
  if [[ $line =~ rocess\ ([0-9]+)\ (ran\ [0-9.]+\ s\ and\ )?ended\ with\ status\ 3 ]]; then
    after=$(last_end)
    sed -n "/^$before\$/,\$p" scanned/flap/numbers | sed "/^$after\$/q" | grep -qx "${BASH_REMATCH[1]}" && named=$((named + 1))
  fi
  sleep 0.0$((look % 10))
done
is 'each look names the last end' 60 "$named"

counts why

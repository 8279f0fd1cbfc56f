#!/usr/bin/env bash
# Feeds suite lines to `dtools sim`: a million event lines to 10 and to 1,000 pairs of a service and its logger, and 500
# scans of 1,000 rows over 1,000 slots, and prints lines a second, and the time of one scan with the reading of its
# line. The program is built first: make build.
set -euo pipefail
cd "$(dirname "$0")/.."
program=$PWD/crates/dtools/out/dtools
[ -x "$program" ] || { echo "build the program first: make build" >&2; exit 1; }
folder=$(mktemp -d)
trap 'rm -rf "$folder"' EXIT

# A scan that finds so many pairs, and, if events are wanted, each service started and up, and then the events.
lines() { # pairs, scans, events
  awk -v pairs="$1" -v scans="$2" -v events="$3" 'BEGIN {
    row = ""
    for (i = 0; i < pairs; i++) row = row sprintf(" dl--:s%04d", i)
    for (i = 0; i < scans; i++) print "scan @400000000000000a00000000" row
    if (events == 0) exit
    for (i = 0; i < pairs; i++) {
      part[i] = 3 * i ".main." 3 * i + 1
      print "at " part[i] " started 4711 @400000000000000b00000000"
      print "at " part[i] " clock @400000000000000c00000000"
    }
    for (i = 0; i < events; i++) print "at " part[i % pairs] " byte t"
  }'
}

# How many milliseconds `sim` takes for a file, whose last answer is this.
milliseconds() { # file, last answer
  local begin end
  begin=$(date +%s%N)
  "$program" sim < "$1" > "$folder/answers"
  end=$(date +%s%N)
  [ "$(tail -n 1 "$folder/answers")" = "$2" ] || { echo "the last answer is: $(tail -n 1 "$folder/answers")" >&2; exit 1; }
  echo $(( (end - begin) / 1000000 ))
}

for pairs in 10 1000; do
  lines "$pairs" 1 1000000 > "$folder/events"
  last=$(( 3 * ((1000000 - 1) % pairs) ))
  took=$(milliseconds "$folder/events" "$last.main.$(( last + 1 )) took TERM:4711 -> up")
  echo "$pairs pairs: a million event lines in $took ms, $(( 1000000000 / took )) lines a second"
done
lines 1000 501 0 > "$folder/scans"
lines 1000 1 0 > "$folder/scan"
first=$(milliseconds "$folder/scan" "2997.log.2999 took record:400000000000000a000000000000000000750000 start -> starting")
took=$(milliseconds "$folder/scans" "scan: 0 started, 0 restarted, 0 dropped, 0 refused")
echo "500 scans of 1,000 rows over 1,000 slots in $(( took - first )) ms, $(( (took - first) * 2 )) microseconds each"

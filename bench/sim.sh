#!/usr/bin/env bash
# Feeds a million event lines to `dtools sim`, from a file and through a pipe, and prints lines a
# second and the peak memory. The program is built first: make build.
set -euo pipefail
cd "$(dirname "$0")/.."
program=$PWD/crates/dtools/out/dtools
[ -x "$program" ] || { echo "build the program first: make build" >&2; exit 1; }
folder=$(mktemp -d)
trap 'rm -rf "$folder"' EXIT
awk 'BEGIN {
  print "begin up @400000000000000a00000000"
  print "started 4711 @400000000000000b00000000"
  print "clock @400000000000000c00000000"
  for (i = 0; i < 999997; i++) print "byte " substr("dutpc", i % 5 + 1, 1)
}' > "$folder/lines"
lines=$(wc -l < "$folder/lines")

measure() { # name, command..
  local name=$1 begin end
  shift
  begin=$(date +%s%N)
  "$@" > "$folder/answers"
  end=$(date +%s%N)
  [ "$(wc -l < "$folder/answers")" = "$lines" ] || { echo "$name: an answer is missing" >&2; exit 1; }
  echo "$name: $lines lines in $(( (end - begin) / 1000000 )) ms, $(( lines * 1000000000 / (end - begin) )) lines a second"
}

from_file() { "$program" sim < "$folder/lines"; }
from_pipe() { cat "$folder/lines" | "$program" sim; }
measure "from a file" from_file
measure "through a pipe" from_pipe
"$program" sim < "$folder/lines" > "$folder/answers" &
peak=0
while [ -r /proc/$!/status ] && read -r _ kilobytes _ < <(grep VmHWM /proc/$!/status 2>/dev/null); do
  [ "${kilobytes:-0}" -gt "$peak" ] && peak=$kilobytes
done
wait
echo "peak memory: $peak KB"

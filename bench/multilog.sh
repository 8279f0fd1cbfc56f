#!/usr/bin/env bash
# Feeds 100 MB to `dtools multilog` over folders on a tmpfs, on one core, next to the loggers of daemontools, runit and s6,
# and next to a program that only makes the same system calls and does none of the work (multilog.c). The programs take
# turns; of five times the best counts. Then: how long one line takes from a pipe to `current`.
#   multilog.sh [PROGRAM [MEGABYTES [ROW]]]    the rows are those whose names hold ROW
# Peers that are missing are installed (apt-get) if that can be done, otherwise skipped. Build the program first: make
# build.
set -euo pipefail
here=$(cd "$(dirname "$0")" && pwd)
program=$(realpath "${1:-$here/../crates/dtools/out/dtools}")
megabytes=${2:-100}
wanted=${3:-}
[ -x "$program" ] || { echo "build the program first: make build" >&2; exit 1; }
for peer in multilog:daemontools svlogd:runit s6-log:s6; do
  command -v "${peer%:*}" >/dev/null ||
    DEBIAN_FRONTEND=noninteractive apt-get install -y -qq --no-install-recommends "${peer#*:}" >/dev/null 2>&1 ||
    echo "no ${peer%:*} here: passed over"
done
folder=$(mktemp -d -p /dev/shm)
trap 'rm -rf "$folder"' EXIT
cc -O2 -o "$folder/measure" "$here/multilog.c"
measure=$folder/measure
cd "$folder"
core=()
if command -v taskset >/dev/null; then core=(taskset -c 0); fi

# Lines of 100 bytes with their newline, 98 of them `a` and then a `b`, so that a pattern `*b` reads each whole; lines of
# 50; and one line.
lines_of() { yes "$(head -c $(($1 - 2)) /dev/zero | tr '\0' a)b" 2>/dev/null | head -c "${megabytes}000000"; }
lines_of 100 >lines || true
lines_of 50 >short || true
head -c "${megabytes}000000" /dev/zero | tr '\0' a >line
# And lines as a program writes them.
yes '2026-11-26 14:15:52.123 INFO worker 12: request /index.html served in 12 ms with status 200 to 10.0.0.1' 2>/dev/null |
  head -c "${megabytes}000000" >real || true

# fresh OLDS: an empty log, or one with so many old files
fresh() {
  rm -rf log
  [ "$1" = 0 ] && return
  mkdir log
  (cd log && seq 1 "$1" | xargs printf '@4%023x.s\n' | xargs touch)
}

# once OLDS INPUT CONFIG PROGRAM WORDS..: nanoseconds and peak memory in KB; svlogd reads its words in the log
once() {
  local olds=$1 input=$2 config=$3
  shift 3
  fresh "$olds"
  if [ "$1" = svlogd ]; then
    mkdir -p log
    printf %b "$config" >log/config
  fi
  "${core[@]}" "$measure" run "$@" <"$input" 2>/dev/null
}

# row NAME OLDS INPUT LEAST DTOOLS DAEMONTOOLS CONFIG SVLOGD S6: the words of each; `least` takes PER OUT FILE KEEP
row() {
  local name=$1 olds=$2 input=$3 config=$7 turn at time memory peak=0
  [[ $name == *"$wanted"* ]] || return 0
  local commands=("$measure least $4" "$program multilog $5" "multilog $6" "svlogd $8" "s6-log -- $9") best=(0 0 0 0 0)
  for turn in 1 2 3 4 5; do
    for at in 0 1 2 3 4; do
      # shellcheck disable=SC2086
      set -f && set -- ${commands[at]} && set +f
      command -v "$1" >/dev/null || continue
      read -r time memory < <(once "$olds" "$input" "$config" "$@") || continue
      if [ "${best[at]}" = 0 ] || [ "$time" -lt "${best[at]}" ]; then best[at]=$time; fi
      if [ "$at" = 1 ] && [ "$memory" -gt "$peak" ]; then peak=$memory; fi
    done
  done
  awk -v name="$name" -v peak="$peak" -v all="${best[*]}" 'BEGIN {
    split(all, t, " ")
    for (i = 3; i <= 5; i++) if (t[i] > 0 && (fastest == 0 || t[i] < fastest)) fastest = t[i]
    printf "| %s | %.1f | %.1f | %.1f | %.1f | %.2f | %.1f | %.2f | %d |\n", name, t[2] / 1e6, t[3] / 1e6, t[4] / 1e6,
      t[5] / 1e6, fastest / t[2], t[1] / 1e6, fastest / t[1], peak
  }'
}

echo "| $megabytes MB | dtools, ms | daemontools | runit | s6 | fastest peer / dtools | least, ms | fastest peer / least | peak, KB |"
echo '|---|---|---|---|---|---|---|---|---|'
sizes='s99999\nn10\n'
# patterns THEM..: the lines of a config, and as regular expressions that say the same
config_of() { printf '%s\\n' "$@"; }
regex_of() {
  local word
  for word; do
    case $word in
    -\* | +\*) printf '%s ' "${word:0:1}" ;;
    *\*) word=${word%\*} && printf '%s^[^%s]*%s ' "${word:0:1}" "${word:2:1}" "${word:2}" ;;
    *) printf '%s^[^b]*%s$ ' "${word:0:1}" "${word:2}" ;;
    esac
  done
}
# pattern_row NAME INPUT LEAST WORDS..
pattern_row() {
  local name=$1 input=$2 least=$3
  shift 3
  row "$name" 0 "$input" "$least" "$* ./log" "$* ./log" "$sizes$(config_of "$@")" ./log "$(regex_of "$@")n10 s99999 ./log"
}
row './log' 0 lines '1 1 98000 10' ./log ./log "$sizes" ./log 'n10 s99999 ./log'
row 't ./log' 0 lines '100 126 98028 10' 't ./log' 't ./log' "$sizes" '-t ./log' 'n10 s99999 t ./log'
selected='1 1 98000 10'
pattern_row 'one pattern, which matches' lines "$selected" '-*' '+*b'
pattern_row '8 patterns, none matches' lines "$selected" '-*b1' '-*b2' '-*b3' '-*b4' '-*b5' '-*b6' '-*b7' '-*b8'
pattern_row '8 patterns, one matches' lines "$selected" '-*' '+*b2' '+*b3' '+*b4' '+*b5' '+*b6' '+*b7' '+*b'
pattern_row '8 patterns, all match' lines "$selected" '-*b' '+*b' '-*b' '+*b' '-*b' '+*b' '-*b' '+*b'
pattern_row 'the same, and no line is selected' lines '1 0 0 10' '-*' '+*b1' '+*b2' '+*b3' '+*b4' '+*b5' '+*b6' '+*b7'
pattern_row '8 words, and no line is selected' real '1 0 0 10' '-*' '+*fatal:*' '+*error:*' '+*panic*' '+*refused*' '+*timeout*' \
  '+*full*' '+*crash*'
row 't s4096 n1000, 1,000 old files' 1000 lines '100 126 2142 1000' 't s4096 n1000 ./log' 't s4096 n1000 ./log' \
  's4096\nn1000\n' '-t ./log' 'n1000 s4096 t ./log'
row 'one line' 0 line '1 1 99999 10' ./log ./log "$sizes" ./log 'n10 s99999 ./log'
row 'lines of 50, ./log' 0 short '1 1 98000 10' ./log ./log "$sizes" ./log 'n10 s99999 ./log'
row 'lines of 50, t ./log' 0 short '50 76 98040 10' 't ./log' 't ./log' "$sizes" '-t ./log' 'n10 s99999 t ./log'
row 't s16777215 ./log' 0 lines '100 126 16777152 10' 't s16777215 ./log' 't s16777215 ./log' 's16777215\nn10\n' '-t ./log' \
  'n10 s16777215 t ./log'

# A log of all lines, one of the faults, and a status file. No other suite has status files.
if [[ 'all lines, faults and a status' == *"$wanted"* ]]; then
  best=(0 0)
  for turn in 1 2 3 4 5; do
    for at in 0 1; do
      [ "$at" = 0 ] && words=("$program" multilog) || words=(multilog)
      command -v "${words[0]}" >/dev/null || continue
      rm -rf err status
      read -r time memory < <(once 0 real '' "${words[@]}" t ./log '-*' '+* fatal: *' '+* *]: fatal: *' ./err =status) || continue
      if [ "${best[at]}" = 0 ] || [ "$time" -lt "${best[at]}" ]; then best[at]=$time; fi
    done
  done
  awk -v all="${best[*]}" 'BEGIN {
    split(all, t, " ")
    printf "| all lines, faults and a status | %.1f | %.1f | | | %.2f | | | |\n", t[1] / 1e6, t[2] / 1e6, t[2] / t[1]
  }'
fi

# Cells: a script of 1, 8, 32 or 128 patterns in mixed forms after `-*`, over lines of 50, 92 or 2,000 bytes. None of the lines
# match, one in ten, or all: the pattern in the middle. s6 is not run here: its regular expressions take minutes a cell.
# cell_lines LENGTH RATE: a line in RATE matches, or none if RATE is 0
cell_lines() {
  awk -v length_of="$1" -v rate="$2" 'BEGIN {
    srand(7)
    count = split("request served worker status timeout accepted from cache index page user session opened closed sent bytes " \
      "reply queue length upstream client config reload loaded", words, " ")
    for (i = 0; i < 2000; i++) {
      line = sprintf("2026-11-26 14:%02d:%02d.%03d %s app[%d]: ", int(i / 60), i % 60, int(rand() * 1000),
        rate && i % rate == 0 ? "FATAL" : i % 4 ? "INFO" : "WARN", 1000 + int(rand() * 9000))
      while (length(line) < length_of) line = line words[1 + int(rand() * count)] " " int(rand() * 1000) " "
      print substr(line, 1, length_of - 2) "."
    }
  }' >cell_block
  while cat cell_block; do :; done 2>/dev/null | head -c "${megabytes}000000"
}
# cell_patterns COUNT: the patterns, one a line
cell_patterns() {
  awk -v count="$1" 'BEGIN {
    last = split("fatal error panic refused failed denied crash full lost dropped expired invalid missing aborted broken " \
      "corrupt", words, " ")
    split("+*%s:*|+* *]: %s: *|+2025-%s *|+*%s|+* * %s *|+*/%s*|+*%s=*;*|+*: %s *", forms, "|")
    print "-*"
    for (i = 0; i < count; i++) {
      word = words[1 + i % last] (i < last ? "" : int(i / last))
      if (i == int(count / 2)) print "+* * FATAL *"
      else printf forms[1 + (i + int(i / last)) % 8] "\n", word
    }
  }'
}
# cell COUNT LENGTH MATCHES
cell() {
  local name="$1 patterns, lines of $2, $3" input=$2 turn at time memory best=(0 0 0) words=()
  [[ $name == *"$wanted"* ]] || return 0
  mapfile -t words < <(cell_patterns "$1")
  local config
  config=$sizes$(config_of "${words[@]}")
  for turn in 1 2 3 4 5; do
    for at in 0 1 2; do
      case $at in
      0) set -- "$program" multilog "${words[@]}" ./log ;;
      1) set -- multilog "${words[@]}" ./log ;;
      2) set -- svlogd ./log ;;
      esac
      command -v "$1" >/dev/null || continue
      read -r time memory < <(once 0 "cell_$input" "$config" "$@") || continue
      if [ "${best[at]}" = 0 ] || [ "$time" -lt "${best[at]}" ]; then best[at]=$time; fi
    done
  done
  awk -v name="$name" -v all="${best[*]}" 'BEGIN {
    split(all, t, " ")
    for (i = 2; i <= 3; i++) if (t[i] > 0 && (fastest == 0 || t[i] < fastest)) fastest = t[i]
    printf "| %s | %.1f | %.1f | %.1f | %.1f |\n", name, t[1] / 1e6, t[2] / 1e6, t[3] / 1e6, fastest / t[1]
  }'
}
if [[ "patterns, lines of" == *"$wanted"* || $wanted == *"patterns, lines of"* ]]; then
  echo
  echo "| patterns over $megabytes MB | dtools, ms | daemontools | runit | fastest peer / dtools |"
  echo '|---|---|---|---|---|'
  for length in 50 92 2000; do
    for matches in 'none match:0' 'one in ten matches:10' 'all match:1'; do
      cell_lines "$length" "${matches#*:}" >"cell_$length" || true
      for count in 1 8 32 128; do cell "$count" "$length" "${matches%:*}"; done
    done
  done
fi

# One line from a pipe to `current`, each once the program rests: the median of 1,000 lines, the best of five.
[[ pipe == *"$wanted"* ]] || exit 0
echo
echo '| one line from a pipe to `current`, microseconds | dtools | daemontools | runit | s6 |'
echo '|---|---|---|---|---|'
# waits NAME WORDS.. of each program
waits() {
  local name=$1 at turn time best=(0 0 0 0)
  shift
  local commands=("$@")
  for turn in 1 2 3 4 5; do
    for at in 0 1 2 3; do
      fresh 0
      mkdir log
      : >log/config
      # shellcheck disable=SC2086
      set -- ${commands[at]}
      command -v "$1" >/dev/null || continue
      time=$("$measure" wait 1000 "$@" 2>/dev/null) || continue
      if [ "${best[at]}" = 0 ] || [ "$time" -lt "${best[at]}" ]; then best[at]=$time; fi
    done
  done
  awk -v name="$name" -v all="${best[*]}" 'BEGIN {
    split(all, t, " ")
    printf "| %s | %.1f | %.1f | %.1f | %.1f |\n", name, t[1] / 1e3, t[2] / 1e3, t[3] / 1e3, t[4] / 1e3
  }'
}
waits './log' "$program multilog ./log" 'multilog ./log' 'svlogd ./log' 's6-log ./log'
waits 't ./log' "$program multilog t ./log" 'multilog t ./log' 'svlogd -t ./log' 's6-log t ./log'

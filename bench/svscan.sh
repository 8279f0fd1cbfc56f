#!/usr/bin/env bash
# bench/svscan.sh [PROGRAM]: dtools' svscan next to daemontools', runit's and s6's own, in one run on one computer: how long
# until 1,000 services are up, and 1,000 pairs of a service and its logger (the median of five times, the suites in turn, and
# next to them a program that only begins the children, starts.c); how long until all of 1,000 have ended after one command;
# what the supervisors take of memory, and of a core while nothing happens; how long `down` takes, and a line from a service
# to its log; how many MB a second a pair carries; and what a new svscan takes of a core that has adopted 1,000 services. Peers that are not installed are installed if apt can do
# that, otherwise left out. It needs python3, cc and a folder in memory. The program is built first.
set -euo pipefail
cd "$(dirname "$0")/.."
program=$(realpath "${1:-crates/dtools/out/dtools}")
[ -x "$program" ] || { echo "build the program first: make build" >&2; exit 1; }
for peer in daemontools:svscan runit:runsvdir s6:s6-svscan; do
  command -v "${peer#*:}" >/dev/null || apt-get install -qq -y --no-install-recommends "${peer%:*}" >/dev/null 2>&1 ||
    echo "${peer%:*} is not installed, and is left out" >&2
done
ulimit -n "$(ulimit -Hn)"
folder=$(mktemp -d -p /dev/shm)
trap 'rm -rf "$folder" "$folder.bin" 2>/dev/null || { sleep 1; rm -rf "$folder"; }' EXIT
mkdir "$folder.bin"
cc -O2 -o "$folder.bin/starts" bench/starts.c
python3 bench/svscan.py "$program" "$folder" "${COUNT:-1000}" "$folder.bin/starts"

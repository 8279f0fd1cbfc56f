#!/usr/bin/env bash
# svscan is killed again and again, with 30 services and 10 pairs under it: survive.py on the program that the first word
# names, and again, with half as many kills, below a process that takes what loses its parent, while no write of svscan's succeeds
# for two seconds after each kill. A second word is how many kills there are, 20 without one.
# gate: 130 seconds, needs python3
tests=$(dirname "$(realpath "$0")")
. "$tests/checks.sh" "$1"
trap 'rm -rf "$room"' EXIT
status=0
python3 -B "$tests/survive.py" "$program" "${2:-20}" || status=1
mkdir below
cd below || exit 1
python3 -B "$tests/survive.py" "$program" "$((${2:-20} / 2))" subreaper || status=1
exit "$status"

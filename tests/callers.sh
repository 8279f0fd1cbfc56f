#!/usr/bin/env bash
# Each public function of the program's crates is called, is a law, or has its reason in callers.py. Takes the program that the
# first word names.
# gate: 2 seconds, needs python3
[ -e "$(dirname "$0")/../crates.txt" ] || { echo 'callers: skipped, the sources are not here'; exit 0; }
python3 -B "$(dirname "$0")/callers.py" "$(dirname "$(realpath "$0")")/.."

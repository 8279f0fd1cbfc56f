#!/usr/bin/env bash
# One growth of memory is refused, or one call of the system fails, each in turn: faults.py on the program that the first word
# names, by way of a library between the program and the system (faults.c), if there are a C compiler and python3. It runs
# each command and multilog; with the word `svscan` after the program that alone, which takes minutes.
# gate: 40 seconds, needs cc python3
tests=$(dirname "$(realpath "$0")")
# A file system in memory, if there is one: multilog has its files written to the disk.
[ -w /dev/shm ] && export TMPDIR=/dev/shm
. "$tests/checks.sh" "$1"
trap 'rm -rf "$room"' EXIT
cc -O1 -shared -fPIC -o faults.so "$tests/faults.c" -ldl && python3 "$tests/faults.py" "$program" "${@:2}"

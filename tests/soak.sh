#!/usr/bin/env bash
# svscan under random work for a minute: soak.py on the program that the first word names. Further words are handed on, as
# `--seconds 1200`.
# gate: 90 seconds, needs python3
tests=$(dirname "$(realpath "$0")")
. "$tests/checks.sh" "$1"
shift
trap 'rm -rf "$room"' EXIT
python3 -B "$tests/soak.py" "$program" --seconds 60 "$@"

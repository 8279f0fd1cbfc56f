#!/usr/bin/env bash
# Every script that is installed or is of the package: a shell reads it, and shellcheck has nothing to say, if that is
# installed. Takes the program that the first word names.
# gate: 10 seconds
top=$(realpath "$(dirname "$0")/..")
. "$top/tests/checks.sh" "$1"
trap 'rm -rf "$room"' EXIT
make -s -C "$top" PROGRAM="$program" DESTDIR="$room/root" PREFIX=/usr install >/dev/null 2>&1
installed=$(grep -lrs '^#!/bin/sh' root "$top/contrib" "$top/scripts" "$top/packaging")
is 'there are scripts' yes "$([ "$(wc -w <<<"$installed")" -gt 25 ] && echo yes)"
for script in $installed; do
  for shell in dash bash; do
    command -v "$shell" >/dev/null || continue
    is "$shell reads ${script#"$top/"}" '' "$("$shell" -n "$script" 2>&1)"
  done
done
is 'bash reads the completion' '' "$(bash -n root/usr/share/bash-completion/completions/dtools 2>&1)"
if command -v shellcheck >/dev/null; then
  for script in $installed; do is "shellcheck of ${script#"$top/"}" '' "$(shellcheck "$script" 2>&1)"; done
else
  echo 'scripts, shellcheck: skipped, shellcheck is missing'
fi
counts scripts

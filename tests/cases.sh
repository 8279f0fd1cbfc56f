#!/usr/bin/env bash
# Runs the worked scripts in tests/cases on the program that the first word names, without the kit: NAME is a case's
# standard input, or the file that the word {} stands for, NAME.args its words, one a line, NAME.stdout what it must print.
# What it prints, reports and exits with is compared with tests/cases.expected.
# gate: 15 seconds
here=$(realpath "$(dirname "$0")")
. "$here/checks.sh" "$1"
trap 'rm -rf "$room"' EXIT

# run_case NAME: prints what the case comes to, as cases.expected has it
run_case() {
  local name=$1 words=() input=/dev/null output= status
  mapfile -t words <"$here/cases/$name.args"
  [ -e "$here/cases/$name" ] && input=$here/cases/$name
  words=("${words[@]/#\{\}/$here/cases/$name}")
  mkdir -p empty
  (cd empty && timeout 120 "$program" "${words[@]}" <"$input" >../printed 2>../reported)
  status=$?
  if [ -e "$here/cases/$name.stdout" ] && cmp -s printed "$here/cases/$name.stdout"; then
    output=' output=expected'
    : >printed
  fi
  [ -n "$output" ] && [ ! -s reported ] || echo "== $name"
  cat printed reported
  echo "case=$name run=ended status=$status runners=1$output proved=no"
}

for file in "$here"/cases/*.args; do
  name=$(basename "$file" .args)
  run_case "$name" >got
  # The lines of this case: all from the one after the case before it.
  awk -v name="$name" '{ block = block $0 "\n" } /^case=/ { if ($1 == "case=" name) printf "%s", block; block = "" }' \
    "$here/cases.expected" >wanted
  is "$name" "$(cat wanted)" "$(cat got)"
done
counts cases

#!/usr/bin/env bash
# Each text that lists the control bytes lists those of `sim table`, and a table of them what they ask. Runs on the program that
# the first word names.
# gate: 1 seconds
top=$(realpath "$(dirname "$0")/..")
. "$top/tests/checks.sh" "$1"
trap 'rm -rf "$room"' EXIT
table=$("$program" sim table)
letters=$(sed -n 's/^\(.\) running: .*/\1/p' <<<"$table" | tr -d '\n')

# in_order LETTERS: them by their codes, for a text that has them in an order of its own
in_order() { fold -w1 <<<"$1" | LC_ALL=C sort | tr -d '\n'; }

# asked COLUMN SIDE: what FORMATS says that a side asks, as `sim table` has it
asked() {
  sed -n '/^| byte | up: asks/,/^| other/p' "$top/docs/FORMATS.md" | awk -F' *[|] *' -v at="$1" -v side="$2" \
    'NR > 2 && $2 != "other" { gsub(/,/, "", $at); print $2 " " side ": " ($at == "" ? "nothing" : $at) }'
}

is 'there are letters' 14 "${#letters}"
is 'help svc, its words' "-$letters" "$("$program" help svc | sed -n 's/.*\[\(-[a-z0-9]*\)\].*/\1/p')"
is 'help svc, a line a letter' "$letters" "$("$program" help svc | sed -n 's/^  \(.\)  .*/\1/p' | tr -d '\n')"
is 'README' "-$letters" "$(grep -o 'svc \[-W\] -[^ ]*' "$top/README.md" | sed 's/.* //')"
is 'dtools-svc(8), synopsis' "$letters" "$(sed -n 's/^\.Op Fl \([a-z0-9]*\)$/\1/p' "$top/man/dtools-svc.8")"
is 'dtools-svc(8), letters' "$(in_order "$letters")" \
  "$(in_order "$(sed -n 's/^\.It Fl \([^W]\)$/\1/p' "$top/man/dtools-svc.8" | tr -d '\n')")"
is 'completion' "$letters" \
  "$(sed -n "s/^ *svc:-.*-W '\(.*\)' --.*/\1/p" "$top/scripts/dtools.bash" | grep -oE -- '-[a-z0-9] ' | tr -d -- '- \n')"
is 'FORMATS, up' "$(grep ' running: ' <<<"$table")" "$(asked 3 running)"
is 'FORMATS, down' "$(grep ' idle: ' <<<"$table")" "$(asked 5 idle)"
counts letters

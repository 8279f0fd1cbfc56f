#!/usr/bin/env bash
# Each path that docs/ARCHITECTURE.md names in `Where to change what`, and in its other tables and texts, is there. A path without
# a crate is one of the crate that the row names last, and a file without a folder is next to the file before it. Takes the
# program that the first word names.
# gate: 2 seconds
top=$(realpath "$(dirname "$0")/..")
. "$top/tests/checks.sh" "$1"
trap 'rm -rf "$room"' EXIT
cd "$top" || exit 1
[ -d crates ] || { echo 'paths: skipped, the sources are not here'; exit 0; }

# rows: the lines of the table, each one's words in backquotes
rows=0
while IFS= read -r row; do
  crate='' folder=''
  rows=$((rows + 1))
  while IFS= read -r word; do
    case $word in
    crates/*) path=$word; crate=${word#crates/}; crate=crates/${crate%%/*} ;;
    tests/* | packaging/* | contrib/* | scripts/* | docs/* | man | man/* | bench/* | Makefile | README.md | crates.txt) path=$word ;;
    src | specs | proofs | src/* | specs/* | proofs/*) path=$crate/$word ;;
    */specs/* | */src/*) path=crates/$word; crate=crates/${word%%/*} ;;
    *.rt | *.antt | postinst | prerm | postrm) path=$folder/$word ;;
    *) continue ;;
    esac
    is "${row:0:60}: $path" there "$([ -e "$path" ] && echo there)"
    folder=$path
    [ -d "$path" ] || folder=${path%/*}
  done < <(grep -o '`[^`]*`' <<<"$row" | tr -d '`')
done < <(sed -n '/^## Where to change what/,/^## /{/^| /p}' docs/ARCHITECTURE.md)
is 'there are rows' yes "$([ "$rows" -gt 50 ] && echo yes)"
for path in $(sed '/^## Where to change what/,/^## Glossary/d' docs/ARCHITECTURE.md | grep -oE '`crates/[^` ]*`' | tr -d '`'); do
  is "$path" there "$([ -e "$path" ] && echo there)"
done

# constant FILE NAME: the value of a constant in a source, without the marks between digits
constant() { sed -nE "s/^(pub(\(crate\))? )?const $2: [a-z0-9]+ = ([0-9_]+);.*/\3/p" "$1" | tr -d _; }

times=0
while IFS='|' read -r _ what value place _; do
  [[ $place =~ \`([A-Z_]+)\`\ in\ \`(crates/[^\`]*)\` ]] || continue
  times=$((times + 1))
  is "${what# }" "$(tr -d ' ' <<<"$value")" "$(constant "${BASH_REMATCH[2]}" "${BASH_REMATCH[1]}")"
done < <(sed -n '/^## The times and sizes/,/^## The way/{/^| /p}' docs/ARCHITECTURE.md)
is 'there are times' yes "$([ "$times" -gt 15 ] && echo yes)"
counts paths

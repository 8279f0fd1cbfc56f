#!/usr/bin/env bash
# The documents are in plain English: no sentence has more than 35 words, no paragraph and no item of a list more than six lines,
# and the words of the list below are not used. It looks at README and the other pages next to it, docs, the manual, the crates'
# pages, README of tests, bench, contrib, scripts and packaging, the results of bench, and the comments of the crates' code, as far
# as they are there (an installed tarball has fewer). Takes the program that the first word names.
#
# A sentence goes from the beginning of a paragraph or of an item, or from the end of a sentence, to the first `.`, `!` or `?`
# before a blank or the end. Text in backquotes, and a list of such texts, counts as one word. A word without a letter or digit
# counts as none. Headings, tables, blocks of code, and the parts NAME, SYNOPSIS and SEE ALSO of a manual page have no sentences.
# The words of the list are sought in tables too.
# gate: 2 seconds, needs python3
top=$(realpath "$(dirname "$0")/..")
. "$top/tests/checks.sh" "$1"
trap 'rm -rf "$room"' EXIT

# Each word not to use (a pattern of Python; `^` is the beginning of a sentence); the word to use; where it is right (a pattern).
cat >words <<'END'
\bstands?\b|\bstood\b; is, are, was; stands? (for|in for)
\banswer(s|ed)?\b(?= (with|for|to|by|at)\b)|\b(it|supervisor|nobody|that|one|system|socket|mailbox) answers?\b|\bis answered\b; returns, prints, responds; [Tt]he answer to
\bbehind\b; after, next to; behind a proxy
\bbeside\b; next to, with;
\bends? with\b; exits; ends? with a star
\bof (which|whom|whose)\b; that, whose, from which;
\b(for )?(a )?want of\b; lack of, out of memory;
^So\b; therefore, or begin with the subject;
^Else\b|, else\b; otherwise;
^Of (?!course); begin with the subject;
\b(it|which|what|that|who|page|record|table|file|line) tells?\b; says, shows; [Nn]ote tells
\bwhere\b; if, when, in which; says? where
\blawful\b; valid;
\bwhereof\b|\bthereof\b|\btherein\b|\bthereby\b|\bhereby\b|\bwhence\b|\bhence\b; say it anew;
\bparted by\b|\bdoes not part\b; separated, distinguish;
\b(pass|passes|passed) over\b; ignore;
\bstart(s|ed)? again and again\b|\b(is|was|be|are) started again\b; restart;
\bmemory serves\b|\bserves? as\b; suffices, is;
END


cd "$top" || exit 1
pages=()
for page in *.md docs/*.md man/*.[1-8] {tests,bench,contrib,scripts,packaging}/README.md bench/RESULTS.md crates/*/README.md; do
  [ -e "$page" ] && pages+=("$page")
done
python3 -B tests/prose.py "$room/words" "${pages[@]}" >"$room/found"
is 'the pages were read' 0 "$?"
for page in "${pages[@]}"; do
  is "$page" 0 "$(grep -c "^$page:" "$room/found")"
done
cat "$room/found"

# The comments of a crate's code, definitions and proofs.
for crate in crates/*/; do
  [ -d "$crate/src" ] || continue
  crate=${crate%/}
  find "$crate" \( -name '*.rt' -o -name '*.antt' \) -print0 | sort -z | xargs -0 python3 -B tests/prose.py "$room/words" >"$room/found"
  is "comments of $crate" '' "$(cat "$room/found")"
done

# What it finds: a sentence of 36 words and none of 35, seven lines and not six, a word of the list, in a table too, and nothing in
# code; and the same in a manual page.
cd "$room" || exit 1
words() { seq -s ' ' "$1" | sed 's/[0-9]*/a&/g'; }
# found FILE: the faults of a page, without their texts
found() { python3 -B "$top/tests/prose.py" words "$1" | sed -E 's/^[^:]*:([0-9]+): (`[^`]*`|[0-9]+ [a-z]+).*/\1 \2/'; }
{
  printf '# So it stands\n\n%s. %s.\n\n' "$(words 36)" "$(words 35)"
  printf 'one\n%.0s' 1 2 3 4 5 6; echo
  printf 'one\n%.0s' 1 2 3 4 5 6 7; echo
  printf 'It stands for it. So be it. `So it stands.`\n\n```\nSo it stands\n```\n\n| a | behind |\n|---|---|\n'
} >page.md
is 'a page' $'3 36 words\n12 7 lines\n20 `So`\n26 `behind`' "$(found page.md)"
printf '/// So it stands\n/// for it.\nfn behind() {} // behind\n    -- It is\n    -- behind it.\n' >page.rt
is 'comments' $'1 `So`\n4 `behind`' "$(found page.rt)"
printf '.Sh NAME\nSo it stands\n.Sh DESCRIPTION\nIt is\n.Ql behind ,\nbehind it.\nSo\n.Bd -literal\nSo it stands\n.Ed\n.Pp\n%s,\n.Ar a .\n' "$(words 35)" >page.8
is 'a manual page' $'4 `behind`\n4 `So`\n12 36 words' "$(found page.8)"
counts prose

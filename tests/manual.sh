#!/usr/bin/env bash
# Runs the examples of the manual pages, each as one session of a shell in a folder of its own, on the program that the first
# word names: lines after `$ ` are typed, and what is under them must be printed. Numbers of processes and seconds may
# differ. Each page has the sections that apply to it. The lines that its command can print are those of docs/FORMATS.md, and each
# of these is in the sources or in its script. If mandoc is there, the pages have no fault and no warning.
# gate: 27 seconds
top=$(realpath "$(dirname "$0")/..")
. "$top/tests/checks.sh" "$1"
leave() {
  [ -e groups ] && while read -r group; do kill_group "$group"; done <groups
  rm -rf "$room"
}
trap leave EXIT
make -s -C "$top" PROGRAM="$program" DESTDIR="$room/tree" PREFIX=/usr/local install >/dev/null 2>&1
# Wrappers that know where this program is.
make -s -C "$top" PROGRAM="$program" PREFIX="$room/at" install >/dev/null 2>&1
export PATH="$room/at/lib/dtools/bin:$room/at/bin:$PATH"
pages=$room/tree/usr/local/share/man

# examples: of a page the lines of its displays, as they are shown
examples() {
  awk '/^\.Bd -literal/ { shows = 1; next } /^\.Ed/ { shows = 0 } shows' |
    sed -e 's/^\\&//' -e 's/ \\&$/ /' -e 's/\\e/\\/g'
}

# numbers: each number that may differ is N
numbers() { sed -E 's/\(pid [0-9]+\) [0-9]+ s/(pid N) N s/; s/down [0-9]+ s/down N s/; s/^break [0-9]+/break N/'; }

# session FILE: what a session prints, with its typed lines
session() {
  local line typed=
  while IFS= read -r line; do
    case $line in
      '$ '*) typed+="printf '%s\n' $(printf %q "$line")"$'\n'"${line#'$ '}"$'\n' ;;
      *) [[ $in_text == 1 ]] && typed+=$line$'\n' ;;
    esac
    # The lines of a text for a command are typed as well.
    case $line in
      '$ '*"<<'END'") in_text=1 ;;
      END) in_text= ;;
    esac
  done <"$1"
  bash -c "$typed" 2>&1
}

# printed FILE: what is under the typed lines, and those
printed() {
  awk '/^\$ / { print; text = /<<.END.$/; next } text { if ($0 == "END") text = 0; next } { print }' "$1"
}

for page in "$pages"/man*/*.gz; do
  name=$(basename "$page" .gz)
  gzip -dc "$page" >"$name"
  examples <"$name" >examples
  # The formats are shown, and not typed.
  [ "$name" = dtools-formats.5 ] && continue
  is "$name has an example" yes "$(grep -q '^\$ ' examples && echo yes)"
  # The pages say where the package puts the names.
  sed -i 's|PATH=/usr/lib/dtools/bin|PATH='"$room"'/at/lib/dtools/bin|' examples
  mkdir session
  in_text=
  got=$(cd session && set -m && session ../examples | numbers)
  is "$name" "$(printed examples | numbers)" "$got"
  rm -rf session
done
# Sections: these, in this order, and of the others those that apply.
files=' envdir envuidgid multilog dtools-service setlock setuidgid supervise svc svok svscan svscan-run svscan-stop svstat tai64nlocal trace wait restart why dtools '
# section PAGE NAME: the text of a section
section() { awk -v name="$2" '/^\.Sh / { shows = substr($0, 5) == name; next } shows' "$1"; }
for name in *.[18]; do
  command=${name%.[18]}
  [ "$command" = dtools-service ] || command=${command#dtools-}
  wanted='NAME SYNOPSIS DESCRIPTION '
  [[ $files != *" $command "* ]] || wanted+='FILES '
  wanted+='EXIT STATUS EXAMPLES '
  [ "$command" = svok ] || wanted+='DIAGNOSTICS '
  wanted+='SEE ALSO '
  is "$name has its sections" "$wanted" "$(sed -n 's/^\.Sh //p' "$name" | grep -vx ENVIRONMENT | tr '\n' ' ')"
  [ "$command" = svok ] || is "$name has diagnostics" yes "$(section "$name" DIAGNOSTICS | grep -q '^\.It ' && echo yes)"
  is "$name has no empty section" '' "$(awk '/^\.Sh / { if (open) print open; open = $0; next } NF { open = "" } END { if (open) print open }' "$name")"
done

# lines: the commands and the lines of each row of the table of faults
lines() {
  sed -n '/^## Faults and statuses/,$p' "$top/docs/FORMATS.md" | awk -F' *[|] *' '/^\| / && $2 != "command" { print $2 "|" $3 }'
}

# said TEXT FILE: whether a file has the text, or its beginning of two words or more, since a line is made of pieces
said() {
  local text=$1
  until grep -qF -- "$text" "$2"; do
    [[ $text == *' '*' '* ]] || return 1
    text=${text% *}
  done
}

# Each line of the table is one that the sources, or the script of that name, can print. Names and numbers are capital letters
# there; what is looked for is the longest piece without one.
cat "$top"/crates/*/src/*.rt >sources 2>/dev/null
rows=0
while IFS='|' read -r commands texts; do
  rows=$((rows + 1))
  for command in ${commands//,/}; do
    cat sources "$top/scripts/$command" >printers 2>/dev/null
    # An installed tarball has only the scripts.
    [ -s sources ] || [[ ' envdir multilog any help version ' != *" $command "* && -e $top/scripts/$command ]] || continue
    while IFS= read -r line; do
      piece=$(sed -E "s/^(COMMAND|$command): //; s/\.\.$//; s/[A-Z]{2,}|\<[A-Z]\>/\n/g" <<<"$line" |
        awk '{ gsub(/^[:\/ .]+|[:\/ ]+$/, ""); if (length($0) > length(most)) most = $0 } END { print most }')
      [ -z "$piece" ] || is "$command can print: $line" yes "$(said "$piece" printers && echo yes)"
    done < <(grep -o '`[^`]*`' <<<"$texts" | tr -d '`')
  done
done < <(lines)
is 'there are rows' yes "$([ "$rows" -gt 50 ] && echo yes)"

# And the other way: what the sources and the scripts say of a fault is in FORMATS, but for the texts of Debug and Display.
while IFS= read -r text; do
  is "FORMATS has: $text" yes "$(grep -qF -- "$text" "$top/docs/FORMATS.md" && echo yes)"
done < <({
  cat "$top"/crates/{cmd_*,svscan_rounds,svc_system,dtools}/src/*.rt 2>/dev/null | grep -vE 'error\(|^ *//' |
    grep -oE '"[^"]*(unable to|still runs|still supervised|not up in|not down in|not restarted in|not wanted up|were not|are needed|not text|written again|listed again|no text|not running|no answer)[^"]*"' |
    sed -E 's/^"[: ]*//; s/(\\n)?"$//; s/[: ]*$//'
  for script in multilog envdir envuidgid setuidgid setlock softlimit pgrphack fghack svscan-run svscan-stop dtools-service; do
    grep -vE '^ *#' "$top/scripts/$script" | grep -E '>&2|fail ' |
      grep -oE '(no [a-z]+ [a-z ]+|unable to [a-z]+|unknown account|it [a-z]+ [a-z ]+|is not served in|still runs)' | sed 's/ *$//'
  done
} | sort -u)
for command in svscan supervise svc svstat svok wait restart multilog tai64n tai64nlocal envdir readproctitle; do
  is "a page of $command" yes "$([ -e "$pages/man8/dtools-$command.8.gz" ] && echo yes)"
done
if command -v mandoc >/dev/null; then
  is 'mandoc says nothing' '' "$(mandoc -Tlint -Wwarning ./*.[1-8] 2>&1)"
fi
counts manual

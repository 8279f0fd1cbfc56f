#!/usr/bin/env bash
# What no contract can say: that the system's own files, folders, children, pipes and clock are what the program takes
# them for. Runs the program that the first word names, prints each check that fails, and at the end how many failed.
# The wanted values are those of the daemontools pages and of docs/FORMATS.md.
# gate: 10 seconds
top=$(realpath "$(dirname "$0")/..")
. "$top/tests/checks.sh" "$1"
trap 'rm -rf "$room"' EXIT

# ended NAME STATUS REPORTED COMMAND..: the command's status, and what it says; what it prints is left in out.
ended() {
  local name=$1 status=$2 reported=$3
  shift 3
  timeout 120 "$@" >out 2>reported </dev/null
  is "$name: status" "$status" "$?"
  is "$name: reported" "$reported" "$(cat reported)"
}

envdir() {
  "$program" envdir "$@"
}

# The environment: trimmed values, NUL for newline, removed and empty variables, names with a dot, a long value.
mkdir d d/.hidden
printf 'x y \t\nrest' >d/A
printf '' >d/HOME
printf '\n' >d/C
printf 'p\0q' >d/D
head -c 40000 /dev/zero | tr '\0' l >d/LONG
printf '\xff' >d/.E
printf 'under' >d/_U
HOME=/home C=old ended 'environment' 0 '' "$program" envdir d sh -c \
  'echo "$A|${HOME-none}|${C-none}|$D|${E-none}|${#LONG}|$_U"'
is 'environment' $'x y|none||p\nq|none|40000|under' "$(cat out)"
FIRST=1 NOTTEXT=$'\xff' ended 'other variables' 0 '' "$program" envdir d sh -c 'echo "$FIRST $NOTTEXT"'
is 'other variables' $'1 \xff' "$(cat out)"

# Entries of the environment that no variable of a shell can be, and one that is longer than most.
if command -v cc >/dev/null; then
  head -c 1000 /dev/zero | tr '\0' L >long
  cat >entries.c <<'END'
#include <unistd.h>
int main(int count, char **words) {
  char *entries[] = {"A=old", "B=1=2", "C=\xff", "=D", "E", words[1], NULL};
  return count < 3 ? 1 : execve(words[2], words + 2, entries);
}
END
  cc -o entries entries.c || exit 1
  mkdir one
  printf new >one/A
  ended 'entries' 0 '' ./entries "F=$(cat long)" "$program" envdir one "$(command -v env)" -0
  is 'entries' "$(printf '%s\n' A=new B=1=2 $'C=\xff' =D E "F=$(cat long)" | LC_ALL=C sort | md5sum)" \
    "$(tr '\0' '\n' <out | LC_ALL=C sort | md5sum)"
fi

# The child: started once, sought in the changed PATH, its status.
ended 'once' 0 '' "$program" envdir d sh -c 'echo started >>starts'
is 'once' started "$(cat starts)"
ended 'exit 7' 7 '' "$program" envdir d sh -c 'exit 7'
ended 'exit 255' 255 '' "$program" envdir d sh -c 'exit 255'
ended 'a signal' 111 '' "$program" envdir d sh -c 'kill -KILL $$'
ended 'no child' 111 'envdir: unable to run /nosuch/child: No such file or directory' "$program" envdir d /nosuch/child
mkdir bin
printf '#!/bin/sh\nexit 5\n' >bin/only_here
chmod 755 bin/only_here
ended 'not in PATH' 111 'envdir: unable to run only_here: No such file or directory' "$program" envdir d only_here
printf '%s' "$room/bin" >d/PATH
ended 'in the changed PATH' 5 '' "$program" envdir d only_here

# Faults of a folder, the first one reported.
ended 'no folder' 111 'envdir: unable to read nosuch: No such file or directory' "$program" envdir nosuch true
mkdir e
printf '' >'e/F=G'
printf '\xff' >e/Z
ended 'a name with =' 111 'envdir: F=G: NameHasEquals' "$program" envdir e true
printf '\xff' >e/B
ended 'a value that is no text' 111 'envdir: B: NotText' "$program" envdir e true
mkdir e/A
ended 'a folder for a file' 111 'envdir: unable to read e/A: Is a directory' "$program" envdir e true
mkdir f
: >"f/$(printf '\377')"
ended 'a name that is no text' 111 'envdir: unable to read f: a name is no text' "$program" envdir f true

# A large file: a trace holds 65,536 entries, and no more.
head='base 2 up 400000000000000b00000000671200000075 stay -'
{ printf 'dtools-trace 1\n%s\n' "$head"; yes 'byte h' | head -n 65536; } >entries
{ cat entries; echo 'end 65536'; } >whole
ended 'a large trace' 0 '' "$program" trace whole
is 'a large trace: entries' '65536 byte h: took HUP:4711 -> up' "$(sed -n 65536p out)"
is 'a large trace: state' 'state up 400000000000000b00000000671200000075' "$(sed -n '65537,$p' out)"
{ cat entries; printf 'byte h\nend 65537\n'; } >more
ended 'one entry more' 111 'trace: line 65539: Line' "$program" trace more
{ cat entries; printf 'clock @400000000000000d00000000\n'; } >more
ended 'one more that is not taken' 111 'trace: line 65539: Line' "$program" trace more
{ cat entries; printf 'bytes h\n'; } >more
ended 'one more that is none' 111 'trace: line 65539: UnknownEvent' "$program" trace more

# The clock: a stamp is between two readings of the system's own, to the nanosecond.
for _ in 1 2 3; do
  before=$(date +%s%N)
  stamp=$(echo x | "$program" tai64n)
  after=$(date +%s%N)
  second=$((16#${stamp:1:16} - (1 << 62) - 10))
  nano=$((16#${stamp:17:8}))
  at=$((second * 1000000000 + nano))
  is 'the clock' true "$([ "$before" -le "$at" ] && [ "$at" -le "$after" ] && echo true)"
done

# What was read is answered before the next read waits.
coproc simulating { timeout 120 "$program" sim; }
echo 'begin up @400000000000000a00000000' >&"${simulating[1]}"
IFS= read -r -t 60 answer <&"${simulating[0]}"
is 'answered at once' 'took record:400000000000000a000000000000000000750000 start -> starting' "$answer"
coproc_input=${simulating[1]}
exec {coproc_input}>&-
wait

# Which dtools this is, by which kit it was built, and from which sources: those here, if they are.
for word in version --version; do
  ended "$word" 0 '' "$program" "$word"
  is "$word: lines" 'dtools kit source ' "$(cut -d ' ' -f 1 out | tr '\n' ' ')"
  is "$word: the sum has 64 digits" yes "$(sed -n 3p out | grep -qE '^source [0-9a-f]{64}$' && echo yes)"
done
if [ -e "$top/packaging/source-sum" ]; then
  is 'version: its number' "dtools $(sed -n '1s/.*(\(.*\)).*/\1/p' "$top/packaging/changelog")" "$(sed -n 1p out)"
  is 'version: the sum' "source $("$top/packaging/source-sum")" "$(sed -n 3p out)"
  is 'version: the kit' "$(sed -n 's/.*KIT: &str = "\(.*\)";/kit \1/p' "$top/crates/cmd_help/src/source.rt")" "$(sed -n 2p out)"
fi

# A full device is reported.
if [ -w /dev/full ]; then
  printf 'begin up @400000000000000a00000000\n' >begin
  "$program" sim <begin >/dev/full 2>reported
  is 'a full device' 111 "$?"
  is 'a full device: reported' 'sim: write fault: No space left on device' "$(cat reported)"
  "$program" version >/dev/full 2>reported
  is 'version on a full device' 111 "$?"
  is 'version on a full device: reported' 'version: write fault: No space left on device' "$(cat reported)"
fi

counts system

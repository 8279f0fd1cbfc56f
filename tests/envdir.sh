#!/usr/bin/env bash
# The commands of `envdir --shell`, as a shell reads them, and the script scripts/envdir, which starts a program in its own
# place, below dash and bash. Runs the program that the first word names. The wanted values are those of docs/FORMATS.md and of
# the page cr.yp.to/daemontools/envdir.html; if Debian's daemontools are installed, also what their envdir makes.
# gate: 25 seconds
top=$(realpath "$(dirname "$0")/..")
. "$top/tests/checks.sh" "$1"
export DTOOLS=$program
script=$top/scripts/envdir
svscan=
leave() {
  own $svscan $(cat daemons 2>/dev/null) | xargs -r kill -KILL 2>/dev/null
  rm -rf "$room"
}
trap leave EXIT

# ended NAME STATUS PRINTED REPORTED COMMAND..
ended() {
  local name=$1 status=$2 printed=$3 reported=$4
  shift 4
  timeout 120 "$@" >out 2>reported </dev/null
  is "$name: status" "$status" "$?"
  is "$name: printed" "$printed" "$(cat out)"
  is "$name: reported" "$reported" "$(cat reported)"
}

# until_true COMMAND..: within a minute
until_true() {
  local looks
  for looks in {1..1200}; do
    "$@" >/dev/null 2>&1 && return
    sleep 0.05
  done
  return 1
}

# The commands.
mkdir d
printf '%s' "it's" >d/A
printf 'two\0lines \t\nrest' >d/B
: >d/GONE
printf ' ' >d/BLANK
printf 'x' >d/-u
printf 'hidden' >d/.H
: >d/UID
own='unset PWD
unset OLDPWD
unset IFS'
files="export A='it'\\''s'
export B='two
lines'
export BLANK=''
unset GONE"
ended 'commands' 0 "$own
$files
exec /usr/bin/env '-u' 'UID' '--' '-u=x' " '' env -i "$program" envdir --shell d
mkdir plain empty
printf 'secret' >plain/KEY
ended 'commands without env' 0 "export PWD='/'
unset OLDPWD
export IFS=':'
export KEY='secret'
exec " '' env -i PWD=/ IFS=: "$program" envdir --shell plain
printf 'PWD=/x\0a.b=1\0UID=7\0_=left\0SHLVL=3\0BASH_X=4\0PPID=5\0KEY=old\0PATH=/bin\0' >given
ended 'commands over the variables of a file' 0 "export PWD='/x'
unset OLDPWD
unset IFS
export KEY='secret'
exec /usr/bin/env '--' 'a.b=1' 'UID=7' 'PPID=5' 'it'\\''s' '' 'x' " '' env -i "$program" envdir --shell plain given "it's" '' x
ended 'a file that is not there: the variables of the process' 0 "export PWD='/'
unset OLDPWD
unset IFS
exec 'true' " '' env -i PWD=/ "$program" envdir --shell empty nosuch true
usage='dtools: usage
dtools envdir DIR PROGRAM WORDS.., or dtools envdir --shell DIR [ENVIRON [PROGRAM WORDS..]]'
ended 'no folder after --shell' 100 '' "$usage" "$program" envdir --shell
ended 'commands of no folder' 111 '' 'envdir: unable to read nosuch: No such file or directory' "$program" envdir --shell nosuch
mkdir e
: >e/F=G
ended 'commands of a name with =' 111 '' 'envdir: F=G: NameHasEquals' "$program" envdir --shell e
"$program" envdir --shell d >/dev/full 2>reported
is 'a full device: status' 111 "$?"
is 'a full device: reported' 'envdir: write fault: No space left on device' "$(cat reported)"
# What can't be read is named, with the cause.
mkdir -p u/KEY
printf 'a' >u/A
ended 'a folder for a file' 111 '' 'envdir: unable to read ./u/KEY: Is a directory' "$program" envdir ./u true
ended 'a folder for a file, by the script' 111 '' 'envdir: unable to read ./u/KEY: Is a directory' "$script" ./u true
ended 'a file for the folder' 111 '' 'envdir: unable to read u/A: Not a directory' "$program" envdir u/A true
ended 'commands of a folder for a file' 111 '' 'envdir: unable to read u/KEY: Is a directory' "$program" envdir --shell u
if [ "$(id -u)" = 0 ] && command -v setpriv >/dev/null; then
  rmdir u/KEY
  printf 'secret' >u/KEY
  chmod 000 u/KEY
  chmod 711 .
  cp "$program" own_program
  chmod 755 own_program
  nobody=(setpriv --reuid=65534 --regid=65534 --clear-groups ./own_program)
  ended 'a file of mode 000' 111 '' 'envdir: unable to read ./u/KEY: Permission denied' "${nobody[@]}" envdir ./u true
  ended 'commands of a file of mode 000' 111 '' 'envdir: unable to read u/KEY: Permission denied' "${nobody[@]}" envdir --shell u
  chmod 700 u
  ended 'a folder of mode 700' 111 '' 'envdir: unable to read u: Permission denied' "${nobody[@]}" envdir u true
fi

mkdir -- --shell
printf 'n' >--shell/A
ended 'a folder of that name' 0 n '' "$program" envdir ./--shell sh -c 'printf %s "$A"'

# Each name that a shell reserves, and odd ones: set to a word and to a number, taken away, and left alone. Below dash and bash
# the program has what `dtools envdir` makes of it, but for what the manual leaves to the shell.
env=$(command -v env)
names='A PPID UID EUID GROUPS IFS OPTIND OPTARG OPTERR PATH ENV BASH_ENV PS1 PS2 PS4 LINENO HOME PWD OLDPWD SHLVL SHELLOPTS
  BASHOPTS BASH BASHPID BASH_VERSION BASH_ARGV0 BASH_COMPAT DIRSTACK EPOCHSECONDS EPOCHREALTIME FUNCNAME HISTCMD HOSTNAME
  PIPESTATUS POSIXLY_CORRECT PROMPT_COMMAND RANDOM SECONDS SRANDOM TERM TMOUT TZ LANG LC_ALL COLUMNS LINES MAIL CDPATH
  FCEDIT HISTFILE IGNOREEOF EDITOR _ a.b a-b 1x x%y'
# of NAME: its lines in what env -0 prints
of() { tr '\0\n' '\n\1' | grep -a "^$1=" | sort; }
for shell in dash bash; do
  command -v "$shell" >/dev/null || continue
  wrong=
  for name in $names; do
    rm -rf one
    mkdir one
    for value in 'x y' 3 ''; do
      printf '%s' "$value" >"one/$name"
      given=("$name=7")
      # What these shells do with such a value of their own at their start is no matter of envdir.
      case $name in OPTIND | SHELLOPTS | BASHOPTS | BASH_COMPAT | POSIXLY_CORRECT | PATH | ENV | BASH_ENV) given=() ;; esac
      wanted=$(env -i PATH=/usr/bin:/bin "${given[@]}" "$program" envdir one "$env" -0 | of "$name")
      got=$(env -i PATH=/usr/bin:/bin DTOOLS="$program" "${given[@]}" "$(command -v $shell)" "$script" one "$env" -0 2>&1 | of "$name")
      [ "$wanted" = "$got" ] || wrong="$wrong $name='$value'"
    done
    case $name in _ | PATH | SHLVL | PS[124] | BASH* | OPTIND | SHELLOPTS | POSIXLY_CORRECT | ENV) continue ;; esac
    got=$(env -i PATH=/usr/bin:/bin DTOOLS="$program" "$name=7" "$(command -v $shell)" "$script" plain "$env" -0 2>&1 | of "$name")
    [ "$got" = "$name=7" ] || wrong="$wrong $name-left"
  done
  is "names, by $shell" '' "$wrong"
  is "nothing more, by $shell" 'DTOOLS= KEY= PATH=' \
    "$(env -i PATH=/usr/bin:/bin DTOOLS="$program" "$(command -v $shell)" "$script" plain "$env" | grep -v '^\(SHLVL\|_\)=' | sed 's/=.*/=/' | sort | xargs)"
done

# No value is on a command line: in forty runs nobody sees it there.
: >looks
(
  while [ -e looks ]; do
    grep -als 's3cr3t\(XYZ\)' /proc/[0-9]*/cmdline
  done >seen 2>/dev/null
) &
printf 's3cr3tXYZ' >plain/KEY
for _ in $(seq 40); do "$script" plain sleep 0.01; done
rm looks
wait
is 'no value is on a command line' '' "$(cat seen)"

# Hostile names and values: by the script each is what `dtools envdir` makes of it, NUL parted.
mkdir h
hostile=("'" "''" '"' '\' "\\'" '$HOME' '$(id)' '`id`' '*' '~' ';' '&' '|' '#' '!' 'a b' '  x' -i -- - '(' '{a,b}' 'ä€' '%s\n')
number=0
for value in "${hostile[@]}"; do
  number=$((number + 1))
  printf '%s' "$value" >"h/V$number"
  printf '%s' "$number" >"h/n$value"
done
printf '%s' "$(head -c 255 /dev/zero | tr '\0' "'")" >h/LONG
printf '1' >"h/$(head -c 255 /dev/zero | tr '\0' L)"
printf 'new\0line\0' >h/LINES
printf '1' >"h/
"
printf '1' >h/-u
printf '1' >h/-i
printf '1' >'h/a.b'
: >h/OUT
all() { OUT=1 KEPT='a b' "$@" h "$(command -v env)" -0 | sort -z | tr '\0\n' '\n\1' | grep -av '^\(_\|PWD\|OLDPWD\|SHLVL\)='; }
all "$program" envdir >by_program
all "$script" >by_script
all bash "$script" >by_bash
is 'hostile: as many as there are' yes "$([ "$(grep -ac '^\(V\|n\|LONG\|LINES\|-\|a\.b\|L\|.\)' by_program)" -ge $((2 * number + 7)) ] && echo yes)"
is 'hostile: the same by the script' '' "$(diff -a by_program by_script | head -n 4 | cat -v)"
is 'hostile: the same by bash' '' "$(diff -a by_program by_bash | head -n 4 | cat -v)"
is 'hostile: a removed one' '' "$(grep -a '^OUT=' by_script)"
is 'hostile: a kept one' 'KEPT=a b' "$(grep -a '^KEPT=' by_script)"
real=$(PATH=/usr/bin:/bin command -v envdir)
if [ -n "$real" ] && dpkg -S "$real" 2>/dev/null | grep -q ^daemontools:; then
  all "$real" >by_daemontools
  is 'hostile: the same by daemontools' '' "$(diff -a by_daemontools by_script | head -n 4 | cat -v)"
fi

# The program: its number, its status, its words, and where it is sought.
ended 'words of the program' 0 "a b|'|" '' "$script" d sh -c 'printf "%s|" "$@"' sh 'a b' "'"
sh -c 'echo $$; exec "$0" "$1" sh -c "echo \$\$"' "$script" d >numbers
is 'the same process number' 1 "$(sort -u numbers | wc -l)"
ended 'status' 7 '' '' "$script" d sh -c 'exit 7'
ended 'no program' 111 '' 'envdir: unable to run no such: No such file or directory' "$script" d 'no such'
ended 'no program by a path' 111 '' 'envdir: unable to run ./none: No such file or directory' "$script" d ./none
ended 'a folder for a program' 111 '' 'envdir: unable to run ./d: Permission denied' "$script" d ./d
ended 'no program and no folder' 111 '' 'envdir: unable to read nosuch: No such file or directory' "$script" nosuch ./none
ended 'no folder' 111 '' 'envdir: unable to read nosuch: No such file or directory' "$script" nosuch true
ended 'no words' 100 '' "$usage" "$script"
ended 'one word' 100 '' "$usage" "$script" d
mkdir own other
printf '#!/bin/sh\necho "own $*"\n' >own/only_here
printf '#!/bin/sh\necho "equals $*"\n' >'own/a=b'
chmod 755 own/*
ended 'not in PATH' 111 '' 'envdir: unable to run only_here: No such file or directory' "$script" d only_here
printf '%s' "/none::$room/own" >other/PATH
ended 'not sought in the changed PATH' 111 '' 'envdir: unable to run only_here: No such file or directory' "$script" other only_here
PATH=/none::$room/own:$PATH ended 'in its own PATH' 0 'own 1 2' '' "$script" other only_here 1 2
ended 'it has the changed PATH' 0 "/none::$room/own" '' "$script" other "$(command -v printenv)" PATH
ended 'a name with =' 0 'equals x y' '' "$script" d './own/a=b' 'x y'
: >other/PATH
ended 'no PATH' 0 '' '' "$script" other sh -c 'env | grep ^PATH= || :' 
cp "$(command -v printenv)" "own/it's \"a\" \$(b)"
PATH="$room/own:$PATH" ended 'a program with quotes in its name' 0 s3cr3tXYZ '' "$script" plain "it's \"a\" \$(b)" KEY

# Under svscan: one daemon after -t, none after -dx.
mkdir -p s/web/env made
printf '1' >s/web/env/ONE
cat >daemon <<'SH'
#!/bin/sh
echo $$ >>"$DAEMONS"
exec sleep 1000
SH
printf '#!/bin/sh\nDTOOLS=%s DAEMONS=%s exec %s ./env %s\n' "$program" "$room/daemons" "$script" "$room/daemon" >s/web/run
chmod 755 daemon s/web/run
alive() { local pid; for pid in $(cat daemons 2>/dev/null); do [ -e "/proc/$pid" ] && echo "$pid"; done | xargs; }
has_started() { [ -s daemons ] && [ "$(wc -l <daemons)" -eq "$1" ]; }
"$program" svscan s >svscan.out 2>svscan.reported </dev/null &
svscan=$!
disown
is 'the first daemon' yes "$(until_true has_started 1 && echo yes)"
shown() { "$program" svstat s/web | sed 's/.*(pid \([0-9]*\)).*/\1/'; }
is_shown() { [ "$(shown)" = "$(cat daemons)" ]; }
until_true is_shown
is 'it is the one that svstat shows' "$(cat daemons)" "$(shown)"
"$program" svc -t s/web
is 'the second daemon' yes "$(until_true has_started 2 && echo yes)"
is 'one daemon after -t' "$(tail -n 1 daemons)" "$(alive)"
mv s/web made/web
"$program" svc -dx made/web
none() { [ -z "$(alive)" ]; }
is 'none after -dx' yes "$(until_true none && echo yes)"
# Variables of 9,000 and 100,000 bytes, and those around them, are as they were.
long=$(printf '%09000d' 7)
longer=$(printf '%0100000d' 7)
is 'long variables' "100007 9005 A=1 B=3 Z=2" \
  "$(env -i A=1 LONG="$long" Z=2 LONGER="$longer" B=3 "$program" envdir empty "$(command -v env)" |
    awk 'length($0) > 99 { print length($0); next } { print }' | LC_ALL=C sort | xargs)"
counts envdir

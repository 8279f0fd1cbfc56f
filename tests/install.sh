#!/usr/bin/env bash
# What `make install` puts where, with which modes, and that `make uninstall` takes just that away. Runs on the program that
# the first word names, below a folder of its own.
# gate: 10 seconds
top=$(realpath "$(dirname "$0")/..")
. "$top/tests/checks.sh" "$1"
trap 'rm -rf "$room"' EXIT

# install WORD..: one of the makefile's targets, over this program
run_make() { make -s -C "$top" PROGRAM="$program" DESTDIR="$room/root" PREFIX=/usr/local "$@" >/dev/null 2>"$room/reported"; }
found() { sorted "$(cd root 2>/dev/null && find . -type f -o -type l)"; }
# sorted PATHS: paths on one line, in byte order
sorted() { echo $1 | tr ' ' '\n' | LC_ALL=C sort | xargs; }
wrappers() { printf "./usr/local/$1/%s " envdir envuidgid fghack multilog pgrphack readproctitle setlock setuidgid softlimit supervise svc svok svrestart svscan svstat svwait tai64n tai64nlocal; }
completions=$(printf './usr/local/share/bash-completion/completions/%s ' dtools envuidgid fghack pgrphack setlock setuidgid softlimit svc svok \
  svrestart svstat svwait)
# pages SECTION NAME..
pages() {
  local section=$1
  shift
  printf "./usr/local/share/man/man$section/%s.$section.gz " "$@"
}
commands='envdir envuidgid fghack multilog pgrphack readproctitle restart service setlock setuidgid softlimit supervise svc svok svscan svscan-run
  svscan-stop svstat tai64n tai64nlocal wait'
manual="$(pages 1 dtools dtools-sim dtools-trace dtools-why) $(pages 5 dtools-formats) $(pages 7 dtools)
  $(pages 8 $(printf 'dtools-%s ' $commands))"
own="./usr/local/bin/dtools $(wrappers lib/dtools/bin) ./usr/local/lib/dtools/bin/svscan-run
  ./usr/local/lib/dtools/bin/svscan-stop ./usr/local/lib/dtools/bin/dtools-service $manual
  ./usr/local/lib/systemd/system/dtools.service $completions"

run_make install
is 'status' 0 "$?"
is 'what it makes' "$(sorted "$own")" "$(found)"
is 'modes' '755 755 644' "$(cd root/usr/local && stat -c %a bin/dtools lib/dtools/bin/svc share/bash-completion/completions/dtools | xargs)"
is 'a wrapper' "$(printf '%s\n' '#!/bin/sh' 'exec /usr/local/bin/dtools svc "$@"')" "$(cat root/usr/local/lib/dtools/bin/svc)"
is 'a wrapper of another name' 'exec /usr/local/bin/dtools wait "$@"' "$(tail -n 1 root/usr/local/lib/dtools/bin/svwait)"
is 'envdir, a script, knows where' 'dtools=/usr/local/bin/dtools' "$(grep -o 'dtools=.*' root/usr/local/lib/dtools/bin/envdir)"
is 'no script looks for the program' '' "$(grep -l 'DTOOLS:-' root/usr/local/lib/dtools/bin/*)"
is 'the tools are where they are here' '' "$(grep -oh '/[a-z/]*bin/[a-z]* ' root/usr/local/lib/dtools/bin/* | sort -u |
  while read -r tool; do [ "$tool" = /usr/local/bin/dtools ] || [ -x "$tool" ] || echo "$tool"; done)"
is 'svscan-run knows where' 'dtools=/usr/local/bin/dtools export PATH=/usr/local/lib/dtools/bin:$PATH' \
  "$(grep -E '^(dtools=|export)' root/usr/local/lib/dtools/bin/svscan-run | xargs)"
is 'the unit' 'ExecStart=/usr/local/bin/dtools svscan /etc/dtools/service' \
  "$(grep ExecStart= root/usr/local/lib/systemd/system/dtools.service)"
is 'the unit runs what is there' '' "$(grep -oE '^Exec[A-Za-z]*=[^ ]*' root/usr/local/lib/systemd/system/dtools.service | cut -d = -f 2 |
  while read -r path; do [ -x "root$path" ] || echo "$path"; done)"
is 'the folder of services' yes "$([ -d root/etc/dtools/service ] && echo yes)"
is 'the program' same "$(cmp -s "$program" root/usr/local/bin/dtools && echo same)"
run_make install
is 'again: status' 0 "$?"
run_make uninstall
is 'uninstall: status' 0 "$?"
is 'uninstall: what is left' '' "$(found)"
is 'uninstall: of its folders none is left' 'root/usr root/usr/local root/usr/local/bin' "$(find root -mindepth 1 | sort | xargs)"
run_make install SERVICES=/service TOOLS=/tools
is 'another folder of services' '/service /service /service' "$(grep -ho '[^ {-]*/service\b' root/usr/local/lib/systemd/system/dtools.service |
  grep -v '^/service/' | tail -n 3 | xargs)"
is 'another folder of services: dtools-service' 'services=${SVDIR:-/service}' "$(grep '^services=' root/usr/local/lib/dtools/bin/dtools-service)"
is 'the tools of another folder' 'exec /tools/setsid "$@"' "$(tail -n 1 root/usr/local/lib/dtools/bin/pgrphack)"
run_make uninstall SERVICES=/service TOOLS=/tools
is 'uninstall of that' 'root/usr root/usr/local root/usr/local/bin' "$(find root -mindepth 1 | sort | xargs)"

# With NAMES=1 the wrappers are in PREFIX/bin too; one of another suite stays when they are taken away.
run_make install NAMES=1
is 'with names' "$(sorted "$own $(wrappers bin)")" "$(found)"
echo other >root/usr/local/bin/svok
run_make uninstall
is 'another suite has a name' ./usr/local/bin/svok "$(found)"

# By a wrapper whose path to the program is absolute, whatever PATH is.
prefix=$room/at
make -s -C "$top" PROGRAM="$program" PREFIX="$prefix" install >/dev/null 2>&1
is 'by a wrapper without PATH' 'none: supervise not running' "$(env -i "$prefix/lib/dtools/bin/svstat" none 2>/dev/null)"

# completes WORD..: what the completion of bash makes of the last word
completes() {
  (
    . "$top/scripts/dtools.bash"
    SVDIR=services COMP_WORDS=("$@") COMP_CWORD=$(($# - 1))
    _dtools
    echo "${COMPREPLY[@]}"
  )
}
mkdir -p services/web/log services/db
is 'completion of a command' 'svscan svc svstat svok' "$(completes dtools sv)"
is 'completion of a service' 'services/web services/web/log' "$(completes svc -t services/w)"
is 'completion of an option' '-u' "$(completes svwait -u)"
is 'completion of a name' 'web' "$(completes svc -t w)"
is 'completion of a service to wait for' 'services/db' "$(completes svwait -d services/d)"
is 'completion of a service to restart' 'services/db' "$(completes svrestart services/d)"
is 'completion of the options of restart' '-t' "$(completes dtools restart -)"
is 'completion of a service of dtools' 'services/db' "$(completes dtools svstat services/d)"

make -s -C "$top" PROGRAM="$room/none" DESTDIR="$room/root" install >/dev/null 2>reported
is 'no program: status' 2 "$?"
is 'no program: reported' "There is no $room/none yet: make build makes it." "$(head -n 1 reported)"
# A program that does not run here, as with an older glibc.
printf '#!/bin/sh\nexit 1\n' >old
chmod 755 old
make -s -C "$top" PROGRAM="$room/old" PREFIX="$room/nowhere" install >/dev/null 2>reported
is 'a program that does not run: status' 2 "$?"
is 'a program that does not run: reported' "$room/old does not run here: it needs Linux on x86_64, and glibc 2.34 or later." \
  "$(head -n 1 reported)"
is 'a program that does not run: nothing is there' no "$([ -e nowhere ] || echo no)"
# Without the kit nothing is built, and no file changes.
if [ -e "$top/packaging/stamp" ]; then
  mkdir -p clone/crates/cmd_help/src
  cp -r "$top/packaging" "$top/Makefile" clone
  cp "$top/crates/cmd_help/src/source.rt" clone/crates/cmd_help/src
  PATH=/usr/bin:/bin make -s -C clone build >/dev/null 2>reported
  is 'make build without the kit: status' 2 "$?"
  is 'make build without the kit: reported' 'There is no Rattle kit here (rt), which proves and builds the program.' "$(head -n 1 reported)"
  is 'make build without the kit: no file changes' '' \
    "$(cmp "$top/crates/cmd_help/src/source.rt" clone/crates/cmd_help/src/source.rt; ls clone | grep -v '^\(Makefile\|crates\|packaging\)$')"
fi
is 'make check without a program' "There is no program $room/none yet: make build makes it." \
  "$("$top/tests/all.sh" "$room/none" 2>&1)"
# without TOOL WORDS..: what becomes of scripts in the gate and elsewhere if a tool that they need is missing
mkdir lacking
for tool in /usr/bin/* /bin/*; do [ -e "lacking/${tool##*/}" ] || ln -s "$tool" lacking; done
without() {
  rm -f "lacking/$1"
  PATH=$room/lacking "$top/tests/all.sh" "$program" "${@:2}" 2>&1 | xargs
  echo "status ${PIPESTATUS[0]}"
}
is 'make check without python3' $'svc: skipped, python3 is missing 0 passed, 0 failed, 1 skipped\nstatus 0' \
  "$(GATE= without python3 svc)"
is 'the gate without python3' $'svc: skipped, python3 is missing 0 passed, 0 failed, 1 skipped\nstatus 1' \
  "$(GATE=1 without python3 svc)"
is 'the gate without a compiler' $'devices: skipped, cc is missing 0 passed, 0 failed, 1 skipped\nstatus 1' \
  "$(GATE=1 without cc devices)"
counts install

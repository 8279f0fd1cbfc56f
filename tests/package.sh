#!/usr/bin/env bash
# What the package does on a system: it is installed, used by the README's first minute, upgraded while services run, refuses
# to go while they run, and leaves nothing. Makes it of the program that the first word names, and installs it into a copy of
# this machine's own system, which an overlay makes, or with the word `debootstrap` into a fresh Debian 12. Needs root. If
# a package can't be made or installed, it runs only what it can.
# gate: 50 seconds, needs dpkg-deb strip
top=$(realpath "$(dirname "$0")/..")
. "$top/tests/checks.sh" "$1"
from=${2:-overlay}
leave() {
  umount "$room/copy/root" "$room/copy" 2>/dev/null
  rm -rf "$room"
}
trap leave EXIT
[ -e "$top/packaging/build" ] && command -v dpkg-deb strip >/dev/null || { echo 'package: skipped, it is not made here'; exit; }

# The same program gives the same package, in whichever folder.
cp -r "$top/packaging" "$top/Makefile" "$top/contrib" "$top/scripts" "$top/man" "$top/docs" "$top/tests" "$top"/{README,CHANGELOG}.md "$top"/LICENSE* .
is "Debian's changelog" "$("$top/packaging/debian-changelog")" "$(cat "$top/packaging/changelog")"
"$top/packaging/build" "$program" "$room/one"
packaging/build "$program" "$room/two"
is 'two builds have one sum' 1 "$(sha256sum one/*.deb two/*.deb | cut -d ' ' -f 1 | sort -u | wc -l)"
is 'two tarballs have one sum' 1 "$(sha256sum one/*.gz two/*.gz | cut -d ' ' -f 1 | sort -u | wc -l)"
is 'its fields' 'dtools amd64 libc6 (>= 2.34)' \
  "$(for field in Package Architecture Depends; do dpkg-deb -f one/*.deb $field; done | xargs -d '\n')"
is 'all of it is root' '' "$(dpkg-deb -c one/*.deb | awk '$2 != "root/root"')"
dpkg-deb -c one/*.deb >listed
for path in ./usr/bin/dtools ./usr/lib/dtools/bin/svscan ./usr/lib/dtools/bin/svscan-run ./lib/systemd/system/dtools.service \
  ./etc/dtools/service/ ./usr/share/man/man7/dtools.7.gz ./usr/share/man/man5/dtools-formats.5.gz \
  ./usr/share/doc/dtools/docs/FORMATS.md ./usr/share/doc/dtools/copyright ./usr/lib/dtools/bin/pgrphack ./usr/lib/dtools/bin/fghack \
  ./usr/lib/dtools/bin/svscan-stop ./usr/share/doc/dtools/examples/dtools-metrics ./usr/share/doc/dtools/examples/dtools.openrc \
  ./usr/share/doc/dtools/examples/Dockerfile; do
  is "it has $path" yes "$(grep -q " $path\$" listed && echo yes)"
done
is 'nothing of daemontools has its place' '' "$(grep -E ' \./usr/s?bin/(svscan|svc|multilog|envdir)$' listed)"
is 'the tarball has a program' "$(tar -xOzf one/*.gz "$(tar -tzf one/*.gz | grep '/dtools$')" | sha256sum)" "$(strip -o stripped "$program" && sha256sum <stripped)"
if command -v lintian >/dev/null; then
  is 'lintian' '' "$(lintian --allow-root --fail-on none one/*.deb 2>/dev/null | grep -E '^[EW]:' | grep -v initial-upload-closes-no-bugs)"
fi
# The package before this one.
packaging/build "$program" "$room/before" 1.9.9

# What is done inside the copy. The README's first minute is typed as it is there.
awk '/^## /{ in_it = /one minute/ } in_it && /^```sh$/ { shows = 1; next } /^```/ { shows = 0 } in_it && shows' "$top/README.md" >minute
is 'the README has a first minute' yes "$(grep -q svscan-run minute && echo yes)"
cat >inside <<'END'
set -u
cd /checked
checked=0
failed=0
scenario=inside
. ./checks
export DEBIAN_FRONTEND=noninteractive PATH=/usr/sbin:/usr/bin:/sbin:/bin
folder=/etc/dtools/service
pid() { /usr/lib/dtools/bin/svstat "$folder/web" | sed -n 's/.*up (pid \([0-9]*\)).*/\1/p'; }
names=$(ls /usr/bin/svscan /usr/bin/multilog /usr/bin/envdir 2>/dev/null | xargs -r sha256sum)
dpkg -i before.deb >said 2>&1
is 'it is installed' 0 "$?"
is 'nothing was started' '' "$(pgrep -x dtools)"
is 'an installed daemontools is as it was' "$names" "$(ls /usr/bin/svscan /usr/bin/multilog /usr/bin/envdir 2>/dev/null | xargs -r sha256sum)"
# Which svscan counts: one of root over a folder of the system.
mkdir -p /srv/own ~root/own /tmp/own
chmod 777 /tmp/own
# counted FOLDER COMMAND..: whether svscan-runs finds a svscan over the folder, started by this command
counted() {
  "${@:2}" /usr/bin/dtools svscan "$1" >/dev/null 2>&1 </dev/null &
  for _ in $(seq 600); do /usr/lib/dtools/bin/svok "$1/.svscan" && break; sleep 0.1; done
  /usr/lib/dtools/svscan-runs
  echo $?
  kill "$!" && wait "$!" 2>/dev/null
}
is 'no svscan counts' 1 "$(/usr/lib/dtools/svscan-runs; echo $?)"
is 'one of root counts' 0 "$(counted /srv/own env)"
is 'one in a home does not count' 1 "$(counted ~root/own env)"
is 'one of another account does not count' 1 "$(counted /tmp/own setpriv --reuid 65534 --regid 65534 --clear-groups)"
rm -rf "$folder/web"
set -m
. ./minute >printed 2>&1
runner=$!
set +m
cd /checked
for _ in $(seq 600); do [ -s "$folder/web/log/main/current" ] && [ -n "$(pid)" ] && break; sleep 0.1; done
is 'the first minute: a line is logged' hello "$(head -n 1 "$folder/web/log/main/current" | cut -d ' ' -f 2-)"
before=$(pid)
is 'the first minute: it is up' yes "$([ -n "$before" ] && echo yes)"
dpkg -i after.deb >said 2>&1
is 'upgraded' 0 "$?"
is 'the service goes on' "$before" "$(pid)"
is 'it says how' 1 "$(grep -c 'svc -q DIR/.svscan' said)"
/usr/lib/dtools/bin/svc -q "$folder/.svscan"
wait "$runner"
is 'so svscan ends' 0 "$?"
is 'the service goes on without it' 0 "$(kill -0 "$before"; echo $?)"
set -m
/usr/lib/dtools/bin/svscan-run "$folder" >printed 2>&1 &
runner=$!
set +m
for _ in $(seq 600); do [ "$(pid)" = "$before" ] && break; sleep 0.1; done
is 'the new svscan has it' "$before" "$(pid)"
dpkg -r dtools >said 2>&1
is 'it does not go while services run' 1 "$?"
is 'it says why' 1 "$(grep -c 'services still run under svscan' said)"
is 'the service goes on still' "$before" "$(pid)"
kill -TERM "$runner"
wait "$runner"
is 'svscan-run ends' 0 "$?"
rm -rf "$folder/web"
dpkg -P dtools >said 2>&1
is 'it goes' 0 "$?"
is 'nothing of it is left' '' "$(ls -d /usr/bin/dtools /usr/lib/dtools /lib/systemd/system/dtools.service /usr/share/doc/dtools "$folder" 2>/dev/null)"
is 'no link dangles' '' "$(find /usr/share/bash-completion /etc/systemd -xtype l 2>/dev/null | grep dtools)"
echo "$checked $failed" >counts
END

# enter ROOT: runs that there, with processes of its own
enter() {
  mkdir -p "$1/checked"
  cp one/*.deb "$1/checked/after.deb"
  cp before/*.deb "$1/checked/before.deb"
  cp inside minute "$1/checked"
  sed -n '/^# is NAME/,$p' "$top/tests/checks.sh" >"$1/checked/checks"
  timeout 900 unshare --mount --pid --fork --kill-child bash -c 'mount -t proc proc "$1/proc" && exec chroot "$1" bash /checked/inside' bash "$1"
  local ran=1 wrong=1
  read -r ran wrong <"$1/checked/counts"
  checked=$((checked + ran))
  failed=$((failed + wrong))
}

[ "$(id -u)" = 0 ] || { echo 'package, installing it: skipped, it needs root'; counts package; exit; }
case $from in
  overlay)
    mkdir copy
    if unshare --mount --pid --fork --kill-child true 2>/dev/null && mount -t tmpfs tmpfs copy 2>/dev/null && mkdir copy/{up,work,root} &&
      mount -t overlay overlay -o "lowerdir=/,upperdir=$room/copy/up,workdir=$room/copy/work" copy/root 2>/dev/null; then
      enter "$room/copy/root"
    else
      dpkg --root="$room/copy" --force-depends --unpack one/*.deb >said 2>&1
      is 'it is unpacked' yes "$([ -x copy/usr/bin/dtools ] && echo yes)"
    fi
    ;;
  debootstrap)
    debootstrap --variant=minbase --include=procps bookworm fresh >said 2>&1
    is 'a fresh Debian' 0 "$?"
    enter "$room/fresh"
    ;;
esac
counts package

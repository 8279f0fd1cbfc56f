#!/usr/bin/env bash
# The package in fresh Debians under a real systemd: `nspawn.sh PROGRAM [FOLDER [SUITE..]]` makes the package of the program,
# boots a tree of each suite (bookworm and trixie if none is named) by systemd-nspawn, and has it installed there by the
# lines of the README. Then: svscan is killed, ends by `svc -q`, is upgraded, is killed six times in a row, and the services
# keep their processes; `systemctl stop` leaves none, nor does it of one that ignores TERM; restart, reload, poweroff.
# It needs root, debootstrap with a network, and some minutes, so it is no part of all.sh. The trees stay in FOLDER, which is
# /var/tmp/dtools-trees, for the next run. What cannot run here is skipped by name.
top=$(realpath "$(dirname "$0")/..")
. "$top/tests/checks.sh" "$1"
trees=${2:-/var/tmp/dtools-trees}
suites=("${@:3}")
[ "${#suites[@]}" -gt 0 ] || suites=(bookworm trixie)
trap 'rm -rf "$room"' EXIT
skip() { echo "nspawn: skipped, $1"; exit 0; }
[ "$(id -u)" = 0 ] || skip 'it needs root'
[ -e "$top/packaging/build" ] || skip 'no package is made here'
for tool in debootstrap systemd-nspawn dpkg-deb strip; do command -v "$tool" >/dev/null || skip "$tool is missing"; done
mkdir -p "$trees"
for suite in "${suites[@]}"; do
  [ -e "$trees/$suite/etc/debian_version" ] && continue
  debootstrap --variant=minbase --include=systemd,systemd-sysv,procps,daemontools "$suite" "$trees/$suite" >"$trees/$suite.log" 2>&1 ||
    skip "debootstrap makes no $suite (no network?)"
done

"$top/packaging/build" "$program" "$room/after"
"$top/packaging/build" "$program" "$room/before" 1.9.9
# blocks HEADING: what the README's blocks of sh under that heading have
blocks() {
  awk -v heading="$1" '/^## /{ in_it = index($0, heading) } in_it && /^```sh$/ { shows = 1; next } /^```/ { shows = 0 } in_it && shows' \
    "$top/README.md"
}

# What is done inside, once the system is up. Each line of `results` is a check.
cat >inside <<'END'
set -u
cd /trial
exec >said 2>&1
checked=0
failed=0
. ./checks
export DEBIAN_FRONTEND=noninteractive PATH=/usr/lib/dtools/bin:/usr/local/sbin:/usr/local/bin:/usr/sbin:/usr/bin:/sbin:/bin
folder=/etc/dtools/service
pid() { svstat "$folder/$1" | sed -n 's/.*up (pid \([0-9]*\)).*/\1/p'; }
pids() { for service in plain web web/log; do pid "$service"; done | xargs; }
living() { for number; do kill -0 "$number" 2>/dev/null && echo "$number"; done | xargs; }
# settled: svscan is served, and each service is over its first second
settled() { for _ in $(seq 100); do svok "$folder/.svscan" && svwait -u -t 5 "$folder/plain" "$folder/web" "$folder/web/log" && return; sleep 0.1; done; }
state() { systemctl show dtools -p "$1" --value; }
checks() {
  systemctl --version | head -n 1
  # The README, word for word.
  mkdir -p ~root/release
  cp before.deb ~root/release/"$(basename "$(cat deb)")"
  (cd ~root && PATH=/usr/sbin:/usr/bin:/sbin:/bin && set -e && . /trial/install)
  is 'the README installs it' 0 "$?"
  is 'nothing was started' '' "$(pgrep -x dtools)"
  set -m
  . ./minute >minute.said 2>&1
  runner=$!
  set +m
  cd /trial
  for _ in $(seq 100); do [ -s "$folder/web/log/main/current" ] && break; sleep 0.1; done
  is 'the first minute: a line is logged' hello "$(head -n 1 "$folder/web/log/main/current" | cut -d ' ' -f 2-)"
  kill -TERM "$runner"
  wait "$runner"
  is 'the first minute: its end' 0 "$?"

  # Services, and the unit.
  rm -rf "$folder/web"
  mkdir -p "$folder"/{plain,web/log,stubborn}
  printf '#!/bin/sh\nexec sleep 7771\n' >"$folder/plain/run"
  printf '#!/bin/sh\nexec 2>&1\ntrap "echo goodbye; exit" TERM\nwhile :; do date +%%s; sleep 0.2; done\n' >"$folder/web/run"
  printf '#!/bin/sh\nexec multilog t ./main\n' >"$folder/web/log/run"
  printf '#!/bin/sh\ntrap "" TERM\nexec sleep 7772\n' >"$folder/stubborn/run"
  chmod 755 "$folder"/*/run "$folder/web/log/run"
  : >"$folder/stubborn/down"
  systemctl enable --now dtools
  is 'systemctl enable --now dtools' 0 "$?"
  settled
  before=$(pids)
  is 'three processes' 3 "$(wc -w <<<"$before")"
  is 'the main process is svscan' "$(pid .svscan)" "$(state MainPID)"
  kill -KILL "$(pid .svscan)"
  sleep 0.5
  settled
  is 'kill -9 of svscan: the services keep their processes' "$(cut -d ' ' -f 1,2 <<<"$before")" "$(pids | cut -d ' ' -f 1,2)"
  is 'the unit is active' active "$(state ActiveState)"
  before=$(pids)
  svc -q "$folder/.svscan"
  sleep 0.5
  settled
  is 'svc -q: the services keep their processes' "$(cut -d ' ' -f 1,2 <<<"$before")" "$(pids | cut -d ' ' -f 1,2)"
  dpkg -i after.deb
  is 'upgrade' 0 "$?"
  svc -q "$folder/.svscan"
  sleep 0.5
  settled
  is 'upgrade: the services keep their processes' "$(cut -d ' ' -f 1,2 <<<"$before")" "$(pids | cut -d ' ' -f 1,2)"
  is 'upgrade: svscan is the new program' /usr/bin/dtools "$(readlink "/proc/$(pid .svscan)/exe")"
  for _ in 1 2 3 4 5 6; do kill -KILL "$(pid .svscan)"; sleep 1; done
  settled
  is 'six kills: the services keep their processes' "$(cut -d ' ' -f 1,2 <<<"$before")" "$(pids | cut -d ' ' -f 1,2)"
  is 'six kills: the unit is active' active "$(state ActiveState)"
  systemctl reload dtools
  is 'reload' 0 "$?"
  is 'reload: the services keep their processes' "$(cut -d ' ' -f 1,2 <<<"$before")" "$(pids | cut -d ' ' -f 1,2)"
  dpkg -r dtools
  is 'it does not go while services run' 1 "$?"
  old=$(pids)
  systemctl restart dtools
  is 'restart' 0 "$?"
  settled
  is 'restart: all have ended' '' "$(living $old)"
  old=$(pids)
  systemctl stop dtools
  is 'stop' 0 "$?"
  is 'stop: all have ended' '' "$(living $old)"
  is 'stop: the last words are logged' goodbye "$(tail -n 1 "$folder/web/log/main/current" | cut -d ' ' -f 2-)"
  is 'stop: the unit is inactive' inactive "$(state ActiveState)"
  # One that ignores TERM: the wait for it is made short.
  mkdir -p /etc/systemd/system/dtools.service.d
  printf '[Service]\nExecStop=\nExecStop=/usr/lib/dtools/bin/svscan-stop %s 3\n' "$folder" >/etc/systemd/system/dtools.service.d/short.conf
  rm "$folder/stubborn/down"
  systemctl daemon-reload
  systemctl start dtools
  settled
  svwait -u -t 5 "$folder/stubborn"
  old="$(pids) $(pid stubborn)"
  is 'four processes' 4 "$(wc -w <<<"$old")"
  systemctl stop dtools
  is 'stop of a stubborn one' 0 "$?"
  is 'stop of a stubborn one: all have ended' '' "$(living $old)"
  is 'stop of a stubborn one: the unit is inactive' inactive "$(state ActiveState)"
  dpkg -r dtools
  is 'it goes' 0 "$?"
  is 'it leaves no link that dangles' '' "$(find /etc/systemd /usr/share/bash-completion -xtype l 2>/dev/null)"

  # The names in /usr/bin, on request only, next to daemontools.
  dpkg -i after.deb
  own=$(sha256sum </usr/bin/svstat)
  /usr/lib/dtools/dtools-names --add
  is 'the names in /usr/bin' /usr/lib/dtools/bin/svstat "$(readlink /usr/bin/svstat)"
  is 'the name of daemontools is aside' "$own" "$(sha256sum </usr/bin/svstat.daemontools)"
  /usr/lib/dtools/dtools-names --remove
  is 'the names of daemontools are back' "$own" "$(sha256sum </usr/bin/svstat)"
  # Power goes off with all of them running.
  systemctl enable --now dtools
  settled
  date +%s >off
}
checks
echo "$checked $failed" >counts
sync
systemctl poweroff
END

# boot SUITE: does that in a copy of its tree
boot() {
  local tree=$room/$1 ran=1 wrong=1 begin=$EPOCHSECONDS
  cp -a "$trees/$1" "$tree"
  mkdir "$tree/trial"
  cp inside "$tree/trial"
  cp after/*.deb "$tree/trial/after.deb"
  cp before/*.deb "$tree/trial/before.deb"
  blocks '## Install' | sed -n 's/^sudo //; /^apt install/s/install/install -y/p' >"$tree/trial/install"
  sed -n 's/.*\(release\/.*deb\).*/\1/p' "$tree/trial/install" >"$tree/trial/deb"
  blocks 'one minute' >"$tree/trial/minute"
  sed -n '/^# is NAME/,$p' "$top/tests/checks.sh" >"$tree/trial/checks"
  printf '[Unit]\nAfter=multi-user.target\n[Service]\nType=oneshot\nExecStart=/bin/bash /trial/inside\nTimeoutStartSec=infinity\n' \
    >"$tree/etc/systemd/system/trial.service"
  mkdir -p "$tree/etc/systemd/system/multi-user.target.wants"
  ln -s ../trial.service "$tree/etc/systemd/system/multi-user.target.wants/trial.service"
  SYSTEMD_NSPAWN_UNIFIED_HIERARCHY=1 timeout 400 systemd-nspawn -q -D "$tree" -b --register=no --keep-unit --console=pipe \
    --private-network >"$1.console" 2>&1 </dev/null
  [ -e "$tree/trial/counts" ] && read -r ran wrong <"$tree/trial/counts"
  checked=$((checked + ran))
  failed=$((failed + wrong))
  grep -A 2 '^FAILED' "$tree/trial/said" | sed "s/^/$1: /"
  sed -n "1s/^/nspawn: $1, /p" "$tree/trial/said"
  scenario=$1
  is 'poweroff: the last words are logged' goodbye \
    "$(tail -n 1 "$tree/etc/dtools/service/web/log/main/current" 2>/dev/null | cut -d ' ' -f 2-)"
  is 'poweroff: seconds' yes "$([ -e "$tree/trial/off" ] && [ $((EPOCHSECONDS - $(cat "$tree/trial/off"))) -lt 40 ] && echo yes)"
  echo "nspawn: $1 took $((EPOCHSECONDS - begin)) s"
  [ "$wrong" = 0 ] || cp "$tree/trial/said" "$trees/$1.said"
  rm -rf "$tree"
}
for suite in "${suites[@]}"; do boot "$suite"; done
counts nspawn

#!/usr/bin/env bash
# The files in contrib/ that watch many machines, next to the program that the first word names: dtools-metrics, the units of
# dtools-page; and if they are installed promtool, systemd-analyze and rsyslogd, which here ships what multilog writes to another rsyslogd on loopback.
# gate: 15 seconds
top=$(realpath "$(dirname "$0")/..")
. "$top/tests/checks.sh" "$1"
shippers=()
leave() {
  for pid in "${shippers[@]}"; do kill "$pid" 2>/dev/null; done
  wait 2>/dev/null
  rm -rf "$room"
}
trap leave EXIT

# dtools-metrics: the services of a folder, and their loggers; the file is replaced as a whole.
sed "s|^dtools=.*|dtools=$program|" "$top/contrib/dtools-metrics" >dtools-metrics
mkdir -p 'services/a b/log' services/web
ln -s nowhere services/dangling
: >services/file
sh ./dtools-metrics file.prom services
is 'metrics: status' 0 "$?"
is 'metrics: services' 'services/a b services/a b/log services/web' \
  "$(sed -n 's/^dtools_service_supervised{service="\(.*\)"} 0$/\1/p' file.prom | xargs -d '\n')"
is 'metrics: who may read it' 644 "$(stat -c %a file.prom)"
before=$(stat -c %i file.prom)
sh ./dtools-metrics file.prom services
is 'metrics: another file' yes "$([ "$before" != "$(stat -c %i file.prom)" ] && echo yes)"
cp file.prom kept
sed 's|^dtools=.*|dtools=false|' dtools-metrics >fails
sh ./fails file.prom services
is 'metrics: a failed run: status' 1 "$?"
is 'metrics: a failed run keeps the file' '' "$(cmp file.prom kept)"
is 'metrics: nothing else stays' 'file.prom' "$(echo file.prom*)"
mkdir none
sh ./dtools-metrics none.prom none
is 'metrics: no service' 0 "$(grep -vc '^#' none.prom)"
sh ./dtools-metrics file.prom nosuch 2>reported
is 'metrics: no folder: status' 111 "$?"
is 'metrics: no folder: reported' 'dtools-metrics: unable to read nosuch: No such file or directory' "$(cat reported)"
is 'metrics: no folder keeps the file' '' "$(cmp file.prom kept)"
sh ./dtools-metrics 2>reported
is 'metrics: no words' '100 dtools-metrics: usage: dtools-metrics file [folder]' "$? $(cat reported)"

if command -v promtool >/dev/null; then
  is 'promtool: metrics' '' "$(promtool check metrics <file.prom 2>&1 || echo "status $?")"
  is 'promtool: rules' '5 rules found' "$(promtool check rules "$top/contrib/dtools.rules.yml" | grep -o '[0-9]* rules found')"
fi
if command -v systemd-analyze >/dev/null; then
  mkdir units
  cp "$top/contrib/dtools-metrics.timer" units
  sed "s|/usr/local/bin/dtools-metrics|$top/contrib/dtools-metrics|" "$top/contrib/dtools-metrics.service" \
    >units/dtools-metrics.service
  cp "$top/contrib/dtools-page.timer" units
  sed "s|/usr/local/bin/dtools-page|$top/contrib/dtools-page|" "$top/contrib/dtools-page.service" >units/dtools-page.service
  systemd-analyze verify --man=no units/dtools-{metrics,page}.{timer,service} >verified 2>&1
  is 'systemd-analyze: status' 0 "$?"
  is 'systemd-analyze' '' "$(grep dtools verified)"
fi

# rsyslogd: each line arrives once, in order, over the files that multilog fills.
modules=${RSYSLOG_MODULES:-/usr/lib/$(uname -m)-linux-gnu/rsyslog}
if command -v rsyslogd >/dev/null && command -v python3 >/dev/null && [ -e "$modules/imfile.so" ]; then
  port=$(python3 -c 'import socket; s = socket.socket(); s.bind(("127.0.0.1", 0)); print(s.getsockname()[1])')
  mkdir -p central ship service/web/log/main
  cat >central.conf <<END
global(workDirectory="$room/central")
module(load="imtcp")
input(type="imtcp" address="127.0.0.1" port="$port" ruleset="in")
template(name="raw" type="string" string="%syslogtag%%msg%\n")
ruleset(name="in") { action(type="omfile" file="$room/arrived" template="raw") }
END
  {
    echo "global(workDirectory=\"$room/ship\")"
    sed "s|/etc/dtools/service/|$room/service/|; s|logs.example.net|127.0.0.1|; s|port=\"514\"|port=\"$port\"|" \
      "$top/contrib/rsyslog-dtools.conf"
  } >ship.conf
  rsyslogd -M "$modules" -n -f central.conf -i "$room/central.pid" >central.said 2>&1 &
  shippers+=($!)
  rsyslogd -M "$modules" -n -f ship.conf -i "$room/ship.pid" >ship.said 2>&1 &
  shippers+=($!)
  # arrived COUNT: waits until so many lines arrived
  arrived() { for _ in $(seq 3000); do [ "$(wc -l 2>/dev/null <arrived)" -ge "$1" ] && return; sleep 0.02; done; }
  # A file is filled with 90 lines or so, and before the next is, those lines have arrived.
  {
    for round in $(seq 20); do
      for line in $(seq 50); do echo "line $((round * 50 + line))"; done
      arrived $((round * 50))
    done
  } 2>/dev/null | "$program" multilog s4096 n50 "$room/service/web/log/main"
  arrived 1000
  is 'rsyslogd: lines' "$(for line in $(seq 51 1050); do echo "line $line"; done | md5sum)" \
    "$(sed 's/.*current: //' arrived | md5sum)"
  is 'rsyslogd: the path' "dtools $room/service/web/log/main/current: line 51" "$(head -n 1 arrived)"
  is 'rsyslogd: files' yes "$([ "$(ls service/web/log/main | grep -c '^@')" -ge 2 ] && echo yes)"
fi
counts machines

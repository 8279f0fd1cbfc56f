#!/usr/bin/env bash
# The page of `svstat --html`, over folders that are made here: status records and traces of given bytes, names of any bytes,
# and sockets at which python3 listens. Runs the program that the first word names. python3's reader of HTML reads the page,
# and then Chromium without a screen, if it is installed.
# gate: 30 seconds, needs python3
top=$(realpath "$(dirname "$0")/..")
. "$top/tests/checks.sh" "$1"
export TZ=UTC
unset SVDIR
trap leave EXIT

# digits AGO: those of the label of so many seconds before `now`
now=$(date +%s)
digits() { printf '%016x00000000' $((4611686018427387914 + now - $1)); }

# record AGO NUMBER WANT: the digits of a record of 18 bytes, with a process number below 65,536
record() {
  local number
  number=$(printf '%04x' "$2")
  printf '%s%s%s000000%s' "$(digits "$1")" "${number:2:2}" "${number:0:2}" "$3"
}
up=75 down=64

# trace FOLDER FOLDED PHASE RECORD ENTRIES..: writes its trace; an entry is an event's line whose label is so many seconds ago
trace() {
  local folder=$1 folded=$2 phase=$3 before=$4 entry
  shift 4
  {
    printf 'dtools-trace 1\nbase %s %s %s stay -\n' "$folded" "$phase" "$before"
    for entry; do
      case $entry in
        byte*) echo "$entry" ;;
        *) echo "${entry% *} @$(digits "${entry##* }")" ;;
      esac
    done
    echo "end $#"
  } >"$folder/supervise/trace"
}

# What a page has, read by python3: `title`, `elements` (which there are), `names`, and `cells N`, those of one row. A rectangle
# is its class, its place and its width.
cat >read.py <<'END'
import html.parser, sys
class Page(html.parser.HTMLParser):
    def __init__(self):
        super().__init__()
        self.elements, self.rows, self.title, self.at = set(), [], "", None
    def handle_starttag(self, tag, attributes):
        a = dict(attributes)
        self.elements.add(tag)
        self.at = "title" if tag == "title" else self.at
        if tag == "th" and a.get("scope") == "row":
            self.rows.append([""])
            self.at = "cell"
        elif tag == "td":
            self.rows[-1].append("")
            self.at = "cell"
        elif tag == "rect":
            self.rows[-1][-1] += f"{a['class']} {a['x']}+{a['width']}; "
        assert not [n for n in a if n.startswith("on") or n in ("href", "src")], a
    def handle_endtag(self, tag):
        if tag in ("title", "td", "th"):
            self.at = None
    def handle_data(self, text):
        if self.at == "cell":
            self.rows[-1][-1] += text
        elif self.at == "title":
            self.title += text
page = Page()
page.feed(sys.stdin.buffer.read().decode())
what = sys.argv[1]
if what == "title":
    print(page.title)
elif what == "elements":
    print(*sorted(page.elements))
elif what == "names":
    print(*(row[0] for row in page.rows), sep="\n")
else:
    print("|".join(page.rows[int(sys.argv[2])]))
END

# page NAME FOLDERS..: writes the page of these into `page.html`, with status 0
page() {
  local name=$1
  shift
  timeout 120 "$program" svstat --html "$@" >page.html 2>reported </dev/null
  is "$name: status" 0 "$?"
}
none='No such file or directory'
everything='body head html meta p rect style svg table tbody td th thead title tr'

# States. The picture of an hour is 3,600 units wide. A clock that went on for a second or two moves it to the left.
listen s
bytes "$(record 7200 4711 $up)" >s/supervise/status
trace s 0 starting "$(record 7300 0 $up)" 'started 4711 7200' 'clock 7199'
printf '4710 signal KILL @%s\n' "$(digits 300)" >s/supervise/exit
page 'up' s
is 'up: reported' '' "$(cat reported)"
is 'up' "s|up|$(date -u -d "@$((now - 7200))" '+%Y-%m-%d %H:%M:%S')|4711|up|0|SIGKILL, 5 min ago|up 0+3600; " \
  "$(python3 read.py cells 0 <page.html)"
TZ=JST-9 page 'a zone' s
is 'a zone' "$(TZ=JST-9 date -d "@$((now - 7200))" '+%Y-%m-%d %H:%M:%S')" "$(python3 read.py cells 0 <page.html | cut -d'|' -f3)"
is 'up: title' Services "$(python3 read.py title <page.html)"
is 'up: elements' "$everything" "$(python3 read.py elements <page.html)"
is 'up: loads nothing' "default-src 'none'; style-src 'unsafe-inline'" \
  "$(grep -A 1 Content-Security-Policy page.html | sed -n 's/^content="\([^"]*\)">$/\1/p')"
rm s/supervise/exit

# rectangles NAME WANTED: those of s, with places and widths rounded to ten seconds
rectangles() {
  page "$1" s
  is "$1" "$2" "$(python3 read.py cells 0 <page.html | sed 's/.*|//' | python3 -c '
import re, sys
print(re.sub(r"\d+", lambda n: str((int(n[0]) + 5) // 10 * 10), sys.stdin.read()), end="")')"
}
# renew: the record of s says again that it began 600 s ago, so that a slow machine is not seen in the picture
renew() {
  now=$(date +%s)
  bytes "$(record 600 4712 $up)" >s/supervise/status
}
renew
trace s 0 starting "$(record 7300 0 $up)" 'started 4711 7200' 'clock 7199' 'death 1200' 'started 4712 600' 'clock 599'
rectangles 'a death that nobody asked for' 'up 0+2400; down 2400+600; warn 3000+0; up 3000+600; died 2390+10; '
is 'one restart' 1 "$(python3 read.py cells 0 <page.html | cut -d'|' -f6)"
renew
trace s 0 starting "$(record 7300 0 $up)" 'started 4711 7200' 'clock 7199' 'byte t' 'death 1200' 'started 4712 600' 'clock 599'
rectangles 'one that was asked for' 'up 0+2400; down 2400+600; warn 3000+0; up 3000+600; '
renew
trace s 0 starting "$(record 7300 0 $up)" 'started 4710 7290' 'clock 7289' 'byte t' 'death 7250' \
  'started 4711 7200' 'clock 7199' 'byte u' 'death 1200' 'started 4712 600' 'clock 599'
rectangles 'a signal to the process before it, and a byte without a signal' \
  'up 0+2400; down 2400+600; warn 3000+0; up 3000+600; died 2390+10; '
renew
trace s 9 up "$(record 7200 4711 $up)" 'death 1200' 'started 4712 600' 'clock 599'
rectangles 'a process that began before the entries' 'up 0+2400; down 2400+600; warn 3000+0; up 3000+600; '
renew
trace s 9 up "$(record 1800 4711 $up)" 'death 1200' 'started 4712 600' 'clock 599'
rectangles 'a trace of half an hour' 'up 1800+600; down 2400+600; warn 3000+0; up 3000+600; '
is 'at least so many' 'at least 1' "$(python3 read.py cells 0 <page.html | cut -d'|' -f6)"
bytes "$(record 500 0 $down)" >s/supervise/status
page 'another process' s
is 'another process' 'dark' "$(python3 read.py cells 0 <page.html | sed 's/.*|//' | grep -o '[a-z]* [0-9+]*; $' | cut -d' ' -f1)"
rm s/supervise/trace
page 'no trace' s
is 'no trace' 'down||' "$(python3 read.py cells 0 <page.html | cut -d'|' -f2,4,8)"
bytes "$(record 500 0 78)" >s/supervise/status
page 'no record' s
is 'no record' 's|status damaged||||||' "$(python3 read.py cells 0 <page.html)"
rm s/supervise/status
page 'no status' s nosuch
is 'no status' 's|status unreadable||||||' "$(python3 read.py cells 0 <page.html)"
is 'nobody there' 'nosuch|not supervised||||||' "$(python3 read.py cells 1 <page.html)"
is 'nobody there: reported' "svstat: nosuch: $none" "$(cat reported)"

# Names of any bytes: each has one row, and is text.
same=('<script>document.title=1' '<img src=x onerror=document.title=2>' '"><b>bold' "'quoted'" 'a&amp;b' '&lt;' '--json' 'grün' '日本'
  "$(printf 'n%.0s' $(seq 200))")
names=("${same[@]}" $'line\nend' $'\x01\x1f\x7f' $'x\xe2\x80\xaegpj.exe' $'\xe2\x81\xa6isolated\xe2\x81\xa9' $'\xc2\x85next')
shown=("${same[@]}" 'line\x0aend' '\x01\x1f\x7f' 'x\xe2\x80\xaegpj.exe' '\xe2\x81\xa6isolated\xe2\x81\xa9' '\xc2\x85next')
for name in "${names[@]}"; do mkdir -- "$name"; done
page 'names' "${names[@]}"
is 'names' "$(printf '%s\n' "${shown[@]}")" "$(python3 read.py names <page.html)"
is 'names: elements' "$(echo "$everything" | sed 's/ rect / /; s/ svg / /')" "$(python3 read.py elements <page.html)"

# All services of SVDIR, and faults.
mkdir -p all/web/log all/db
SVDIR=$room/all page 'all'
is 'all' 'db web' "$(python3 read.py names <page.html | xargs)"
SVDIR=$room/all timeout 120 "$program" svstat -l --html >page.html 2>reported
is 'all with loggers' "db web $room/all/web/log" "$(python3 read.py names <page.html | xargs)"
"$program" svstat --html s >/dev/full 2>reported
is 'a full device' '111 svstat: write fault: No space left on device' "$? $(cat reported)"

# dtools-page: the file is replaced as a whole, and stays after a fault.
sed "s|^dtools=.*|dtools=$program|" "$top/contrib/dtools-page" >dtools-page
sh ./dtools-page written.html all
is 'dtools-page' "0 db web all/web/log" "$? $(python3 read.py names <written.html | xargs)"
is 'dtools-page: who may read it' 644 "$(stat -c %a written.html)"
cp written.html kept.html
sh ./dtools-page written.html nosuch 2>reported
is 'dtools-page: no folder' "111 svstat: unable to read SVDIR: $none" "$? $(cat reported)"
is 'dtools-page: no folder keeps the file' '' "$(cmp written.html kept.html)"
is 'dtools-page: nothing else stays' written.html "$(echo written.html*)"
sh ./dtools-page 2>reported
is 'dtools-page: no words' '100 dtools-page: usage: dtools-page file [folder]' "$? $(cat reported)"

# Chromium: what it makes of the page, and what is seen on a telephone.
browser=$(command -v chromium-headless-shell || command -v chromium)
if [ -z "$browser" ]; then
  echo 'page: skipped what needs chromium'
  counts page
  exit
fi
bytes "$(record 7200 4711 $up)" >s/supervise/status
trace s 0 starting "$(record 7300 0 $up)" 'started 4711 7200' 'clock 7199'
# browse OPTIONS..: the browser on the page, with a home of its own
browse() {
  HOME=$room timeout 300 "$browser" --headless --no-sandbox --disable-gpu --user-data-dir="$room/profile" --virtual-time-budget=2000 \
    "$@" "file://$room/page.html" 2>browsed
}
page 'browser' s "${names[@]}"
browse --dump-dom >dom.html
is 'browser: names' "$(printf '%s\n' s "${shown[@]}")" "$(python3 read.py names <dom.html)"
is 'browser: title' Services "$(python3 read.py title <dom.html)"
is 'browser: elements' "$everything" "$(python3 read.py elements <dom.html)"
browse --window-size=420,900 --hide-scrollbars --screenshot="$room/seen.png" >/dev/null
# The picture of s is green throughout, and 8rem wide.
is 'telephone: the picture is on the screen' '420 128' "$(python3 - <<'END'
import struct, zlib
data = open("seen.png", "rb").read()
width, height, depth, kind = struct.unpack(">IIBB", data[16:26])
parts, at = b"", 8
while at < len(data):
    size, name = struct.unpack(">I4s", data[at:at + 8])
    parts += data[at + 8:at + 8 + size] if name == b"IDAT" else b""
    at += size + 12
raw, step = zlib.decompress(parts), {2: 3, 6: 4}[kind]
line, best = bytearray(width * step), 0
for y in range(height):
    rule, now = raw[y * (width * step + 1)], bytearray(raw[y * (width * step + 1) + 1:(y + 1) * (width * step + 1)])
    for x in range(len(now)):
        left, above, corner = now[x - step] if x >= step else 0, line[x], line[x - step] if x >= step else 0
        guess = left + above - corner
        near = min((abs(guess - left), 0, left), (abs(guess - above), 1, above), (abs(guess - corner), 2, corner))[2]
        now[x] = (now[x] + (0, left, above, (left + above) // 2, near)[rule]) % 256
    line, run = now, 0
    for x in range(width):
        run = run + 1 if bytes(now[x * step:x * step + 3]) == b"\x2e\x7d\x32" else 0
        best = max(best, run)
print(width, best)
END
)"

counts page

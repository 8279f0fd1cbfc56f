# Makes the manual page dtools-formats(5) of docs/FORMATS.md. Knows of Markdown what is there: headings, paragraphs, lists,
# tables, blocks of code, links to other pages, and text in back quotes. With a variable `page` it prints that page instead, and
# in place of a line `.\" faults of COMMAND..` the rows of `Faults and statuses` for these commands.

# A text for mdoc, without escapes and control lines of its own.
function plain(text) {
  gsub(/\\/, "\\e", text)
  if (text ~ /^['.]/) text = "\\\&" text
  return text
}

# A text with bold pieces for those in back quotes, and links as their words.
function shown(text,    out, pieces, count, at) {
  gsub(/\]\([^)]*\)/, "", text)
  gsub(/\[/, "", text)
  gsub(/\*\*/, "", text)
  count = split(text, pieces, "`")
  out = ""
  for (at = 1; at <= count; at++) {
    gsub(/\\/, "\\e", pieces[at])
    out = out (at % 2 ? pieces[at] : "\\fB" pieces[at] "\\fR")
  }
  if (out ~ /^['.]/) out = "\\\&" out
  return out
}

# Prints text, each sentence on a line of its own.
function say(text,    at) {
  while (match(text, /[.:?] +[A-Z]/) || match(text, /\. +\\fB/)) {
    at = RSTART
    print text_line(substr(text, 1, at))
    text = substr(text, at + 1)
    sub(/^ +/, "", text)
  }
  print text_line(text)
}
function text_line(text) {
  return text ~ /^['.]/ ? "\\&" text : text
}

function end_table() {
  if (in_table || in_list) print ".El"
  in_table = 0
  in_list = 0
}

# The cells of a row.
function row(line,    cells, count, at, text) {
  sub(/^\| */, "", line)
  sub(/ *\|$/, "", line)
  count = split(line, cells, / *\| */)
  print ".It " shown(cells[1])
  text = ""
  for (at = 2; at <= count; at++) {
    if (cells[at] != "") text = text (text == "" ? "" : "; ") (columns > 2 ? columns_of[at] ": " : "") cells[at]
  }
  if (text != "") say(shown(text))
}

# Prints a meaning as sentences.
function say_meaning(text,    at) {
  if (text !~ /^svscan/) sub(/^./, toupper(substr(text, 1, 1)), text)
  if (text !~ /\.$/) text = text "."
  while (match(text, /[.] +[A-Z`]/)) {
    print shown(substr(text, 1, RSTART))
    text = substr(text, RSTART + 1)
    sub(/^ +/, "", text)
  }
  print shown(text)
}

# The rows of a command.
function rows(command, shown_as,    number, cells, lines, count, at) {
  for (number = 1; number <= all; number++) {
    split(of[number], cells, / *\| */)
    if ((", " cells[1] ",") !~ (", " command ",")) continue
    if (shown_as != "any") gsub(/COMMAND/, shown_as, cells[2])
    count = split(cells[2], lines, "`")
    for (at = 2; at <= count; at += 2) {
      gsub(/\\/, "\\e", lines[at])
      print ".It \"" lines[at] "\""
    }
    say_meaning(cells[3])
    if (cells[4] ~ /^[0-9]+$/) print "Exit status " cells[4] "."
    else if (cells[4] !~ /^-/) say_meaning("exit status " cells[4])
  }
}

# The page, with these rows.
function print_page(    line, words, count, at) {
  while ((getline line <page) > 0) {
    if (line !~ /^\.\\" faults of /) {
      print line
      continue
    }
    print ".Bl -diag"
    count = split(line, words, " ")
    for (at = 4; at <= count; at++) rows(words[at], words[at] == "any" ? words[4] : words[at])
    print ".El"
  }
}

page != "" {
  if (/^## /) in_part = /^## Faults/
  if (in_part && /^\|/ && !/^\|[-|]*$/ && !/^\| command /) {
    sub(/^\| */, "")
    sub(/ *\|$/, "")
    of[++all] = $0
  }
  next
}
page == "" && NR == 1 {
  print ".Dd November 25, 2026"
  print ".Dt DTOOLS-FORMATS 5"
  print ".Os"
  print ".Sh NAME"
  print ".Nm dtools-formats"
  print ".Nd files, lines and faults of dtools"
  print ".Sh DESCRIPTION"
  print "What the commands of"
  print ".Xr dtools 1"
  print "read and write."
}

/^```/ {
  end_table()
  in_code = !in_code
  is_first = 0
  print in_code ? ".Bd -literal -offset indent" : ".Ed"
  next
}
in_code { print plain($0); next }
/^# / { next }
/^## / { end_table(); print ".Ss " substr($0, 4); is_first = 1; next }
/^\|[-|]*$/ { next }
/^\|/ {
  if (!in_table) {
    print ".Bl -tag -width Ds"
    in_table = 1
    is_first = 0
    # The first row names the columns.
    sub(/^\| */, "")
    sub(/ *\|$/, "")
    columns = split($0, columns_of, / *\| */)
    next
  }
  row($0)
  next
}
/^$/ { end_table(); is_open = 1; next }
/^- / {
  if (!in_list) print ".Bl -bullet"
  in_list = 1
  is_open = 0
  is_first = 0
  print ".It"
  say(shown(substr($0, 3)))
  next
}
in_list && /^  / { say(shown(substr($0, 3))); next }
{
  if (is_open && !is_first) print ".Pp"
  is_open = 0
  is_first = 0
  say(shown($0))
}
END {
  if (page != "") {
    print_page()
    exit
  }
  end_table()
  print ".Sh SEE ALSO"
  print ".Xr dtools 1 ,"
  print ".Xr dtools-svscan 8"
}

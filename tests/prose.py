"""Faults of documents in plain English: see prose.sh, which has the list of words and says what a sentence is.

prose.py WORDS FILE..: prints `FILE:LINE: FAULT` for each."""
import re
import sys

rows = [line.rstrip("\n").split(";") for line in open(sys.argv[1])]
BANNED = [(re.compile(no.strip()), yes.strip(), re.compile(fine.strip()) if fine.strip() else None) for no, yes, fine in rows]
MOST_WORDS, MOST_LINES = 35, 6
DROPPED = {"NAME", "SYNOPSIS", "SEE ALSO"}
PUNCTUATION = set(".,;:()?!")


def blocks_of_markdown(lines):
    """(first line, how many lines, text, whether it has sentences) of each paragraph, item and table's row."""
    block, fenced = None, False
    for number, line in enumerate(lines, 1):
        begins = re.match(r" *([-*]|\d+\.) ", line)
        if line.startswith("```"):
            fenced = not fenced
        kind = "skip" if fenced or line.startswith(("```", "#")) or not line.strip() else "row" if line.startswith("|") else "text"
        if line.startswith("    ") and not begins and block is None:
            kind = "skip"
        if block and (kind != "text" or begins):
            yield (*block, True)
            block = None
        if kind == "row":
            yield number, 1, line, False
        elif kind == "text":
            block = (block[0], block[1] + 1, block[2] + " " + line.strip()) if block else (number, 1, line.strip())
    if block:
        yield (*block, True)


def words_of_macro(line):
    """What a line of mdoc shows: the words of its macros, punctuation joined to the word before, a name or text as one word."""
    macro, *rest = line[1:].split()
    text = re.sub(r' (Ar|Pa|Fl|Ic|Ql|Sq|Li|Cm|Ev|Em|Sy|Nm|Op|Xr|Lk|Ns|Ta) ', " ", " " + " ".join(rest) + " ").strip().replace('"', "")
    closing = ""
    while text.split() and text.split()[-1] in PUNCTUATION:
        closing = text.split()[-1] + closing
        text = " ".join(text.split()[:-1])
    if macro in ("Ql", "Li", "Pa", "Ic", "Xr", "Sq", "Lk"):
        text = "`" + text + "`"
    return (text if macro != "Nm" or text else "it") + closing


def blocks_of_manual(lines):
    block, section, display, column = None, "", False, False
    for number, line in enumerate(lines, 1):
        macro = line[1:3] if line.startswith(".") else ""
        if macro == "Bd":
            display = True
        if macro in ("Sh", "Ss", "Pp", "It", "Bl", "El", "Bd", "Ed", "Dd", "Dt", "Os", "Nd", "D1", "Dl") or display or section in DROPPED:
            if block:
                yield (*block, not column)
            block = None
            if macro == "Sh":
                section = line[4:]
            column = column and macro != "El" or macro == "Bl" and "-column" in line
            if macro == "Ed":
                display = False
            if macro == "It" and section not in DROPPED:
                yield number, 1, words_of_macro(line), False
            continue
        text = words_of_macro(line) if macro else re.sub(r"\\[e&]", "", line)
        block = (block[0], 1, block[2] + " " + text) if block else (number, 1, text)
    if block:
        yield (*block, not column)


def blocks_of_code(lines):
    """(first line, 1, text, True) of each paragraph and item of the comments."""
    block, kind, fenced = None, "", False
    for number, line in enumerate(lines, 1):
        found = re.match(r"\s*(///|//!|//|--)( |$)(.*)", line)
        mark, text = (found[1], found[3]) if found else ("", "")
        if text.startswith("```"):
            fenced = not fenced
        is_text = text.strip() and not fenced and not text.startswith(("```", "    ", "#"))
        if block and (mark != kind or not is_text or re.match(r" *([-*]|\d+\.) ", text)):
            yield (*block, True)
            block = None
        if is_text:
            block = (block[0], 1, block[2] + " " + text.strip()) if block else (number, 1, text.strip())
        kind = mark
    if block:
        yield (*block, True)


def reader_of(path):
    return blocks_of_manual if re.search(r"\.[1-8]$", path) else blocks_of_code if path.endswith((".rt", ".antt")) else blocks_of_markdown


def plain(text):
    """A text without links' targets, emphasis and numbers of items; text in backquotes is one word."""
    text = re.sub(r"\]\([^)]*\)", "]", text)
    text = re.sub(r"^([-*]|\d+\.) ", "", text)
    text = re.sub(r"`[^`]*`", "CODE", text)
    return re.sub(r"CODE(?:,? (?:and |or )?CODE)+", "CODE", text).replace("**", "").replace("[", "").replace("]", "")


for path in sys.argv[2:]:
    lines = open(path).read().split("\n")
    for first, count, text, has_sentences in reader_of(path)(lines):
        if count > MOST_LINES:
            print(f"{path}:{first}: {count} lines in a row: {plain(text)[:60]}")
        sentences = re.split(r"(?<=[.!?])[)\"]*\s+", plain(text)) if has_sentences else [cell.strip() for cell in plain(text).split("|")]
        for sentence in sentences:
            length = len([word for word in sentence.split() if re.search(r"[A-Za-z0-9]", word)])
            if has_sentences and length > MOST_WORDS:
                print(f"{path}:{first}: {length} words: {sentence[:70]}")
            for no, yes, fine in BANNED:
                for found in no.finditer(sentence):
                    around = [] if fine is None else [it for it in fine.finditer(sentence) if it.start() <= found.start() < it.end() or found.start() <= it.start() < found.end()]
                    if not around:
                        print(f"{path}:{first}: `{found.group()}` ({yes}): ..{sentence[max(0, found.start() - 30):found.end() + 30]}")

"""The public functions of the program's crates that nothing calls: not their own crate, and no crate above it, the proved tests
among these. A law is called by nothing, since its clause is all that it has: its body is empty. Any other has its reason below.

callers.py FOLDER, of the repository; by names, so a function counts as called where another one of its name is."""
import glob
import re
import sys

top = sys.argv[1]
TESTS = {"svc_tests", "host_tests", "limit_tests", "test_base"}
# Why a function is there that nothing calls.
REASONS = {
    "svc_door::close": "svscan's door lasts as long as its process; whoever holds one for less closes it",
    "host_law::host_is_of_a_suite": "a law of each host, by what the host says of itself",
    "svc_world::unwritten": "the count that the contract of `write` names",
    "svscan_rounds::others_need_no_row": "a law, by another one",
    "tai_status::into_string": "the way back from `Name::new`",
}

below = {}
for line in open(f"{top}/crates.txt"):
    name, colon, names = line.partition(":")
    if colon and not line.startswith("#"):
        below[name.split()[0]] = names.split()


def text_of(crate):
    """The sources of a crate, without comments and clauses, which name no call."""
    text = "\n".join(open(path).read() for path in sorted(glob.glob(f"{top}/crates/{crate}/src/**/*.rt", recursive=True)))
    text = re.sub(r"//[^\n]*|^ *ghost use [^;]*;", "", text, flags=re.M)
    return re.sub(r"^ *(requires|ensures)\b(.|\n)*?(?=^ *(requires|ensures|\{|#\[)|;)", "", text, flags=re.M)


texts = {crate: text_of(crate) for crate in below}
checked, wrong = 0, []
for crate, text in texts.items():
    if crate in TESTS:
        continue
    near = "\n".join([text, *[texts[it] for it, names in below.items() if crate in names]])
    for found in re.finditer(r"^ *pub fn (\w+)", text, re.M):
        name = found[1]
        checked += 1
        called = len(re.findall(rf"(?<!fn )\b{name}\b(?=(::<[^()]*>)?\()", near)) + len(re.findall(rf"[(,] *(?:\w+::)*{name}(?=[,)])", near))
        is_law = re.match(r"[^{}]*\{\s*\}", text[found.end():]) is not None
        if not called and not is_law and f"{crate}::{name}" not in REASONS:
            wrong.append(f"{crate}::{name}")
for name in wrong:
    print(f"FAILED callers: nothing calls {name}")
print(f"callers: {checked} checks, {len(wrong)} failed")
sys.exit(bool(wrong))

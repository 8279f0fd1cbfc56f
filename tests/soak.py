"""svscan under random work: 20 services, some of which have a finish, and 8 pairs under flow, random letters, kills of services, loggers and svscan, its own
`q` and `x`, services that go and come, garbage on the sockets, SIGSTOP, a disk that fills, and a limit of descriptors that is
reached and raised. Afterwards: never two copies of a service, none next to its finish, each line in order and at most once, the losses within the bound
of each kill, `x` ends svscan in time, no zombie, and memory and descriptors are as at the start.

soak.py PROGRAM [--seed N] [--seconds N], in an empty folder."""
import argparse
import os
import random
import re
import signal
import socket
import subprocess
import sys
import time

from processes import BOUND, is_alive, read, runs_in, state

words = argparse.ArgumentParser()
words.add_argument("program")
words.add_argument("--seed", type=int, default=random.randrange(1 << 32))
words.add_argument("--seconds", type=float, default=60)
words = words.parse_args()
program = os.path.realpath(words.program)
random.seed(words.seed)
checked, failed = 0, 0
SERVICES = [f"s{number}" for number in range(20)]
PAIRS = [f"f{number}" for number in range(8)]
FINISHING = SERVICES[:5]
PARTS = SERVICES + PAIRS + [name + "/log" for name in PAIRS]
# The lines of a life have numbers of their own, so many at most.
LIFE = 10_000_000
LINE = re.compile(rb"line 1\d{10}")


def check(name, wanted, got):
    global checked, failed
    checked += 1
    if wanted != got:
        failed += 1
        print(f"FAILED soak (seed {words.seed}): {name}\n  wanted {wanted}\n  got    {got}", flush=True)


def starts(name):
    return [int(line) for line in read("starts/" + name.replace("/", "-")).split()]


def living(name):
    """The processes of the starts of a part that live: the last ones, since a number may come again. One that came again in the
    folder of a flow is a child of it."""
    return [pid for pid in dict.fromkeys(starts(name)[-40:]) if is_alive(pid) and runs_in(pid, "d/" + name) and not is_child_of(name, pid)]


def finishing(name):
    """The processes of the last finishes of a service that live. A number that came again in a start is none."""
    noted = [int(line) for line in read("finishes/" + name).split()[-3:]]
    return {pid for pid in noted if is_alive(pid) and runs_in(pid, "d/" + name)} - set(starts(name)[-40:])


def runs_beside(name):
    """Whether a process of a service runs next to its finish, which was there before and after the look at it."""
    before = finishing(name)
    return bool(before) and bool(living(name)) and bool(before & finishing(name))


def is_child_of(name, pid):
    """Whether a process is no flow itself, but a child that one of this name has for a moment."""
    return name in PAIRS and read(f"/proc/{pid}/comm") != b"run\n"


def make(folder, run):
    made = os.path.dirname(folder) + "/.made"
    os.makedirs(made)
    noted = f"{os.getcwd()}/starts/{folder.removeprefix('d/').replace('/', '-')}"
    with open(made + "/run", "w") as file:
        file.write(f"#!/bin/sh\necho $$ >>{noted}\n{run}")
    os.chmod(made + "/run", 0o755)
    os.rename(made, folder)


def add_finish(name):
    with open(f"d/{name}/.finish", "w") as file:
        file.write(f"#!/bin/sh\necho $$ >>{os.getcwd()}/finishes/{name}\nsleep 0.{random.randint(0, 4)}\n")
    os.chmod(f"d/{name}/.finish", 0o755)
    os.rename(f"d/{name}/.finish", f"d/{name}/finish")


# A counter that goes on where the last life of the service ended, so that a line that comes twice shows. It is replaced as a
# whole, since a life may be killed at any moment, and no line comes before that.
def flow(name):
    kept = f"{os.getcwd()}/flow/{name}"
    return f"""i=$(cat {kept} 2>/dev/null)
i=$((${{i:-0}} + {LIFE}))
echo $i >{kept}.new && mv {kept}.new {kept} || exit
while :; do
  i=$((i + 1))
  echo "line $((10000000000 + i))"
  [ $((i % 20)) -ne 0 ] || sleep 0.02
done
"""


def until(seconds, is_so):
    end = time.monotonic() + 6 * seconds
    while not is_so():
        if time.monotonic() > end:
            return False
        time.sleep(0.05)
    return True


svscan, kills = None, 0


def start():
    global svscan
    with open("reported", "ab") as reported:
        svscan = subprocess.Popen(["/bin/sh", "-c", 'trap "" XFSZ; exec "$0" svscan d', program], stdin=subprocess.DEVNULL,
                                  stdout=subprocess.DEVNULL, stderr=reported, start_new_session=True)


def svc(letters, *names):
    subprocess.run([program, "svc", "-" + letters, *["d/" + name for name in names]], capture_output=True, timeout=60)


def is_served(name):
    return subprocess.run([program, "svok", "d/" + name], capture_output=True).returncode == 0


def killed(pids):
    for pid in pids:
        try:
            os.kill(pid, signal.SIGKILL)
        except ProcessLookupError:
            pass


def limit(what, soft):
    subprocess.run(["prlimit", "--pid", str(svscan.pid), f"--{what}={soft}:"], capture_output=True)


def sends_letters():
    svc("".join(random.sample("udohaitpc", random.randint(1, 3))), random.choice(SERVICES))


def sends_garbage():
    try:
        with socket.socket(socket.AF_UNIX) as there:
            there.settimeout(1)
            there.connect(f"d/{random.choice(PARTS)}/supervise/control")
            there.sendall(bytes(random.choice(b"zyw!0\n\xff") for _ in range(random.randint(1, 300))))
    except OSError:
        pass


def kills_service():
    killed(living(random.choice(SERVICES + PAIRS)))


def kills_logger():
    global kills
    kills += 1
    killed(living(random.choice(PAIRS) + "/log"))


def kills_svscan():
    global kills
    kills += 1
    svscan.kill()
    svscan.wait()
    time.sleep(random.choice([0, 0, random.uniform(0, 0.3)]))
    start()


def leaves():
    # A letter to a svscan that has just begun is lost.
    until(10, lambda: is_served(".svscan"))
    svc("q", ".svscan")
    try:
        svscan.wait(20)
    except subprocess.TimeoutExpired:
        check("q ends svscan", True, False)
        svscan.kill()
        svscan.wait()
    start()


def stops_one():
    for pid in living(random.choice(SERVICES)):
        os.kill(pid, signal.SIGSTOP)
        time.sleep(random.uniform(0, 0.2))
        os.kill(pid, signal.SIGCONT)


def moves_one():
    name, letters = random.choice(SERVICES), random.choice(["dx", "x"])
    # A letter to a service that svscan has not begun is lost.
    until(10, lambda: is_served(name))
    os.rename(f"d/{name}", f"gone-{name}")
    time.sleep(random.uniform(0, 0.5))
    svc(letters, f"../gone-{name}")
    # After `x` alone a process runs on, as long as it likes.
    if letters == "dx":
        until(5, lambda: not any(is_alive(pid) and runs_in(pid, f"gone-{name}") for pid in starts(name)[-5:]))
    os.rename(f"gone-{name}", f"d/{name}")
    svc("a", ".svscan")


def fills_disk():
    limit("fsize", 0)
    for work in random.choices([kills_service, sends_letters, kills_logger], k=4):
        work()
        time.sleep(random.uniform(0, 0.2))
    if random.random() < 0.3:
        kills_svscan()
    else:
        limit("fsize", "unlimited")


def has_few_descriptors():
    limit("nofile", len(os.listdir(f"/proc/{svscan.pid}/fd")))
    for work in random.choices([kills_service, sends_letters, sends_garbage], k=4):
        work()
        time.sleep(random.uniform(0, 0.2))
    limit("nofile", 4096)


WORK = [(sends_letters, 30), (sends_garbage, 8), (kills_service, 20), (kills_logger, 8), (kills_svscan, 6), (leaves, 3), (stops_one, 5),
        (moves_one, 3), (fills_disk, 3), (has_few_descriptors, 3)]


def numbers():
    pss = re.search(rb"^Pss:\s+(\d+)", read(f"/proc/{svscan.pid}/smaps_rollup"), re.M)
    return len(os.listdir(f"/proc/{svscan.pid}/fd")), int(pss.group(1)) if pss else 0


def all_up():
    return all(is_served(name) and len(living(name)) == 1 for name in PARTS)


for folder in ("d", "starts", "finishes", "flow"):
    os.mkdir(folder)
for name in SERVICES:
    make("d/" + name, "exec sleep 1000\n")
for name in FINISHING:
    add_finish(name)
for name in PAIRS:
    make("d/" + name, flow(name))
    make(f"d/{name}/log", f"exec {program} multilog s16777215 n1000 ./main\n")
start()
check("all are up", True, until(20, all_up))
before = numbers()
copies, beside, looks, end = [], [], 0, time.monotonic() + words.seconds
while time.monotonic() < end:
    random.choices([work for work, _ in WORK], [weight for _, weight in WORK])[0]()
    time.sleep(random.uniform(0, 0.15))
    looks += 1
    copies += [f"{name}: {found}" for name, found in ((name, living(name)) for name in PARTS) if len(found) > 1]
    beside += [name for name in FINISHING if runs_beside(name)]
check("never two copies", [], copies[:5])
check("none runs next to its finish", [], beside[:5])
check("a finish ran", True, any(read("finishes/" + name) for name in FINISHING))
until(30, lambda: all(is_served(name) for name in PARTS))
svc("ucu", *PARTS)
up = until(30, all_up)
check("all are up again", [], [] if up else [(name, is_served(name), living(name)) for name in PARTS if len(living(name)) != 1][:5])
time.sleep(3)
after = numbers()
check("descriptors as at the start", True, abs(after[0] - before[0]) <= 4)
check("memory as at the start, in KB", True, after[1] <= before[1] * 1.5 + 4000)
children = [pid for pid in os.listdir("/proc") if pid.isdigit() and f" {svscan.pid} ".encode() in read(f"/proc/{pid}/stat").rpartition(b")")[2][:24]]
check("no zombies", [], [pid for pid in children if state(pid) == "Z"])
began = time.monotonic()
svc("x", ".svscan")
try:
    svscan.wait(30)
except subprocess.TimeoutExpired:
    svscan.kill()
took = time.monotonic() - began
check("x ends svscan within 10 s", True, took <= 10)
check("nothing is left", [], [(name, living(name)) for name in PARTS if living(name)])
lost = 0
for name in PAIRS:
    olds = sorted(file for file in os.listdir(f"d/{name}/log/main") if file.startswith("@"))
    lines = b"".join(read(f"d/{name}/log/main/{file}") for file in [*olds, "current"]).split(b"\n")[:-1]
    whole = [int(line[5:]) for line in lines if LINE.fullmatch(line)]
    check(f"{name}: in order, and at most once", [], [pair for pair in zip(whole, whole[1:]) if pair[0] >= pair[1]][:3])
    check(f"{name}: something was logged", True, len(whole) > 100)
    # Within one life of the service the lines have the numbers one after the other, but for what a kill lost.
    lost += sum(next - line - 1 for line, next in zip(whole, whole[1:]) if next // LIFE == line // LIFE) * 17
check(f"lost bytes: {lost}, within the bound", True, lost <= kills * BOUND)
for pid in [pid for name in PARTS for pid in starts(name)[-40:] if runs_in(pid, "d/" + name)]:
    os.kill(pid, signal.SIGKILL)
if failed:
    print("reported last:\n" + read("reported")[-3000:].decode(errors="replace"), f"status of svscan: {svscan.returncode}")
print(f"soak: seed {words.seed}, {words.seconds:g} s, {looks} looks, {kills} kills of svscan and loggers, x in {took:.1f} s")
print(f"soak: {checked} checks, {failed} failed")
sys.exit(failed > 0)

"""svscan is killed at any moment, and another one begins: no service is started twice or another time, each stands as before,
and each line is logged once and in order, but for what svscan had in its memory. Works in the folder that it is in, on the
program that its first word names, with so many kills as its second word says. With the word `subreaper` behind them what loses
its parent goes to this process and not to process 1, and for two seconds after each kill no write of svscan's succeeds."""
import ctypes
import json
import os
import random
import re
import signal
import subprocess
import sys
import time

from processes import BOUND, is_alive, read, runs_in

program, kills = sys.argv[1], int(sys.argv[2])
below = sys.argv[3:] == ["subreaper"]
if below:
    ctypes.CDLL(None).prctl(36, 1, 0, 0, 0)
checked, failed = 0, 0


def check(name, wanted, got):
    global checked, failed
    checked += 1
    if wanted != got:
        failed += 1
        print(f"FAILED {name}\n  wanted {wanted}\n  got    {got}", flush=True)


def service(folder, run, files=()):
    """Makes a service whose folder appears with all it has, these empty files among it."""
    made = os.path.dirname(folder) + "/.made"
    os.makedirs(made)
    for name in files:
        open(f"{made}/{name}", "w").close()
    with open(made + "/run", "w") as file:
        file.write("#!/bin/sh\necho $$ >>starts\n" + run)
    os.chmod(made + "/run", 0o755)
    os.rename(made, folder)


def living(name):
    """The processes of the starts of a service that live: those in its folder, since a number may come again."""
    return [int(line) for line in read(f"d/{name}/starts").split() if is_alive(int(line)) and runs_in(int(line), f"d/{name}")]


def reap():
    """Waits for what has lost its parent and died, but for svscan itself."""
    while below:
        try:
            found = os.waitid(os.P_ALL, 0, os.WEXITED | os.WNOHANG | os.WNOWAIT)
        except ChildProcessError:
            return
        if not found or found.si_pid == (svscan and svscan.pid):
            return
        os.waitpid(found.si_pid, 0)


def until(seconds, is_so):
    """Whether it is so within these seconds, six times as many on a busy machine."""
    end = time.monotonic() + 6 * seconds
    while not is_so():
        reap()
        if time.monotonic() > end:
            return False
        time.sleep(0.05)
    return True


def svc(letters, names):
    subprocess.run([program, "svc", letters, *["d/" + name for name in names]], capture_output=True)


def stands(names):
    """How each service stands: its process, since when, and what is wanted, as its record and svstat have it."""
    reported = subprocess.run([program, "svstat", "--json", *["d/" + name for name in names]], capture_output=True, text=True).stdout
    found = {}
    for name, line in zip(names, reported.splitlines()):
        line = json.loads(line)
        # The seconds pass, and each svscan counts for itself.
        for member in "seconds", "starts", "deaths":
            line.pop(member, None)
        found[name] = line, read(f"d/{name}/supervise/status")[:12]
    return found


def is_steady():
    """Whether the services that are put down are down, and the others up, for half a second."""
    first = stands(steady)
    time.sleep(0.5)
    phases = {name: found[0].get("phase") for name, found in first.items()}
    return first == stands(steady) and phases == {name: "down" if name in put else "up" for name in steady}


svscan = None


def start(writes=True):
    global svscan
    run = ["sh", "-c", 'trap "" XFSZ; exec "$0" svscan d', program]
    if not writes:
        run = ["prlimit", "--fsize=0:", *run]
    with open("reported", "ab") as reported:
        svscan = subprocess.Popen(run, stdin=subprocess.DEVNULL, stdout=subprocess.DEVNULL, stderr=reported, start_new_session=True)


def kill():
    svscan.kill()
    svscan.wait()


def is_served(names):
    return all(subprocess.run([program, "svok", "d/" + name], capture_output=True).returncode == 0 for name in names)


SLEEP = "exec sleep 1000\n"
# A service that gave its streams away, and a child of it that holds them.
QUIET = "sleep 900 &\nexec sleep 1000 </dev/null >/dev/null 2>&1\n"
OTHER = "exec setpriv --reuid 65534 --regid 65534 --clear-groups sleep 1000\n"
FLOW = """i=0
until [ -e ../../stop ]; do
  i=$((i + 1))
  echo "line $((100000000 + i))"
  [ $((i % 50)) -ne 0 ] || sleep 0.02
done
echo $i >last
exec sleep 1000
"""

# These begin a session of their own.
APART = {f"s{number}" for number in range(15, 21)} | {"x1"}

os.mkdir("d")
up = [f"s{number}" for number in range(21)] + ["quiet"] + (["other"] if os.geteuid() == 0 else [])
paused, put, once, dying = ["p0", "p1"], ["d0", "d1"], ["o0", "o1"], ["x0", "x1"]
pairs = [f"f{number}" for number in range(10)]
loggers = [name + "/log" for name in pairs]
steady = up + paused + put + once + pairs
for name in up + paused + put + once + dying:
    service("d/" + name, {"quiet": QUIET, "other": OTHER}.get(name, SLEEP), ["setsid"] if name in APART else [])
for name in pairs:
    service("d/" + name, FLOW)
    service(f"d/{name}/log", f"exec {program} multilog s16777215 ./main\n")

start()
check("all are up", True, until(20, lambda: is_served(steady + dying + loggers) and all(living(name) for name in steady + loggers)))
time.sleep(1.5)
svc("-p", paused)
svc("-d", put)
svc("-o", once)
check("put down", True, until(10, lambda: not any(living(name) for name in put)))
check("each service is as it was asked to be", True, until(20, is_steady))
before = stands(steady)
wrong = []
for number in range(kills):
    time.sleep(random.uniform(0.1, 1.5))
    kill()
    if number % 5 == 4:
        for pid in living("x0") + living("x1"):
            os.kill(pid, signal.SIGKILL)
    time.sleep(random.choice([0, 0, random.uniform(0, 0.5)]))
    start(writes=not below)
    if below:
        time.sleep(2)
        subprocess.run(["prlimit", "--pid", str(svscan.pid), "--fsize=unlimited:"], capture_output=True)
    if not until(10, lambda: is_served(steady + dying + loggers)):
        wrong.append(f"kill {number}: not served")
    after = stands(steady)
    wrong += [f"kill {number}: {name}: {after.get(name)}, not {before[name]}" for name in steady if after.get(name) != before[name]]
    wrong += [f"kill {number}: {name} runs {living(name)}" for name in steady + dying if len(living(name)) > 1]
check("each service stands as before", [], wrong[:10])
check("what died meanwhile is begun anew", True, until(10, lambda: all(living(name) for name in dying)))

open("stop", "w").close()
check("the flows end", True, until(30, lambda: all(read(f"d/{name}/last") for name in pairs)))
last = {name: int(read(f"d/{name}/last")) for name in pairs}
until(10, lambda: all(read(f"d/{name}/log/main/current").endswith(b"line %d\n" % (100000000 + last[name])) for name in pairs))
for name in pairs:
    lines = read(f"d/{name}/log/main/current").split(b"\n")[:-1]
    whole = [int(line[5:]) - 100000000 for line in lines if re.fullmatch(rb"line 1\d{8}", line)]
    check(f"{name}: the last line is logged", last[name], whole[-1] if whole else None)
    check(f"{name}: no line twice, and in order", [], [line for line, next in zip(whole, whole[1:]) if line >= next][:5])
    check(f"{name}: pieces of torn lines, of one a kill at most", True, len(lines) - len(whole) <= 2 * kills)
    check(f"{name}: missing bytes, within the bound", True, (last[name] - len(whole)) * 15 <= kills * BOUND)


def unexpected(also=rb"(?!)"):
    """What was reported, but for what a failing write has to report, and for what is expected besides."""
    lines = re.sub(rb"svscan: \S+: " + also + rb"\n", b"", read("reported"))
    if below:
        lines = re.sub(rb"svscan: \S+: (unable to write .*|all records are written again|unable to supervise: .*)\n", b"", lines)
        lines = re.sub(rb"multilog: .*\n", b"", lines)
    return lines


# Of a service with a session of its own any other process of the machine that began one meanwhile may be the process.
check("nothing was reported", b"", unexpected(rb"(?<=x1: )process \d+ still runs"))

kill()
wrong = []
for number in range(30):
    start()
    time.sleep(random.uniform(0, 0.06))
    kill()
    wrong += [f"{number}: {name} runs {living(name)}" for name in steady + dying if len(living(name)) > 1]
start()
check("all are served", True, until(15, lambda: is_served(steady + dying + loggers)))
time.sleep(2)
wrong += [f"last: {name} runs {living(name)}" for name in steady + dying if len(living(name)) > 1]
check("killed soon after the start: never two copies", [], wrong[:10])
# A process of which a kill kept the record from being written is reported; one that is being begun keeps the lock so long.
check("nothing else was reported", b"", unexpected(rb"process \d+ still runs"))

kill()
for name in steady + dying + loggers:
    for pid in living(name):
        os.kill(pid, signal.SIGKILL)
for pid in [pid for pid in os.listdir("/proc") if pid.isdigit()]:
    try:
        if os.readlink(f"/proc/{pid}/cwd").startswith(os.getcwd() + "/d/"):
            os.kill(int(pid), signal.SIGKILL)
    except OSError:
        pass
print(f"survive: {checked} checks, {failed} failed")
sys.exit(failed > 0)

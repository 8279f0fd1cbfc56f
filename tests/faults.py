"""One growth of memory is refused, or one call of the system fails: each in turn, counted from the first, until a run meets
none. A command ends as without the fault, or with one line that says what failed and the status 111; never by a signal, and
never without an end. Of what it prints and writes there is a front then. svscan goes on, and what it could not begin in
one round it begins in a later one. Works in the folder that it is in, where faults.so stands, on the program that its first word names."""
import functools
import os
import re
import shutil
import signal
import socket
import subprocess
import sys
import threading
import time

program, room = sys.argv[1], os.getcwd()
checked, failed = 0, 0


def check(name, wrong, count):
    """What was wrong, and how often a fault was met, which is to be some times."""
    global checked, failed
    checked += 1
    if wrong or count == 0:
        failed += 1
        print(f"FAILED {name}, {count} times:", *wrong[:10], sep="\n  ", flush=True)


def faulted(fault, met, words, given=b"", channel=None):
    """Runs the program with a fault, CALL:N:ERROR, and with the channel of a logger, if there is one. Gives the run, or None
    where it came to no end."""
    around = dict(os.environ, FAULT=fault, FAULT_MET=met, LD_PRELOAD=room + "/faults.so")
    passed = () if channel is None else (channel,)
    if passed:
        around["DTOOLS_STOP_FD"] = str(channel)
    try:
        return subprocess.run([program, *words], input=given, capture_output=True, env=around, pass_fds=passed, timeout=120)
    except subprocess.TimeoutExpired:
        return None


def plain(text):
    """Without what differs from run to run: labels, and numbers of seconds."""
    return re.sub(rb"@[0-9a-f]{24}", b"@", re.sub(rb"\d+( seconds|\.\d+\b)", rb"N\1", text))


def seen(ran):
    return ran.returncode, plain(ran.stdout), plain(ran.stderr)


# A service that is brought down, and two services in a folder, for sim.
EVENTS = b"begin up @400000000000000a00000000\nstarted 4711 @400000000000000b00000000\nclock @400000000000000c00000000\nbyte d\n"
SCANS = b"""scan @400000000000000a00000000 d---:a dl--:b
at 0.main.1 started 10 @400000000000000b00000000
at 0.main.1 clock @400000000000000c00000000
at 0.main.1 byte d
scan @400000000000000d00000000 d---:a dl--:b d---:c
"""
# A name for which there is no slot.
FULL = b"scan @400000000000000a00000000" + b"".join(b" d-n-:d%04d" % number for number in range(1000)) + b"\n"
FULL += FULL[:-1] + b" d-n-:d1000\n"
# One part is begun again, one service dropped, one started.
AGAIN = b"""scan @400000000000000a00000000 dlnm:p d-n-:q
at 0.log.2 byte x
at 3.main.4 byte x
scan @400000000000000b00000000 dlnm:p d-n-:r
"""


def growths(words, given):
    """How many growths a run asks for."""
    met, unmet = 0, 1 << 20
    while unmet - met > 1:
        number = (met + unmet) // 2
        faulted(f"malloc:{number}:12", "met", words, given)
        if os.path.exists("met"):
            os.remove("met")
            met = number
        else:
            unmet = number
    return met


def starves(*words, given=b"a line\n@4000000037c219bf2ef02e94 another\n", are_wrong=False, silent=False, says=None, last=None):
    """Each growth of a command refused in turn. Wrong words are reported, however little memory there is behind the program's own.
    A silent command prints nothing where it reports that. What it `says` is reported at one of the growths. Where there are many
    growths, the `last` so many are refused."""
    good = subprocess.run([program, *words], input=given, capture_output=True)
    reporters = b"dtools" if are_wrong else words[0].encode() + b"|dtools"
    reported = re.compile(rb"(%s): ((word|line) \d+: )?OutOfMemory\n" % reporters)
    first = max(1, growths(words, given) - last + 1) if last else 1
    wrong, number, reports = [], first, set()
    while True:
        ran = faulted(f"malloc:{number}:12", "met", words, given)
        if not os.path.exists("met"):
            break
        os.remove("met")
        if ran is None:
            wrong.append(f"growth {number}: no end")
            break
        front = b"" if silent else plain(good.stdout)
        is_reported = ran.returncode == 111 and reported.fullmatch(ran.stderr) and front.startswith(plain(ran.stdout))
        reports.add(ran.stderr)
        if not is_reported and seen(ran) != seen(good):
            wrong.append(f"growth {number}: status {ran.returncode}, {ran.stdout} {ran.stderr}")
        number += 1
    if says and says not in reports:
        wrong.append(f"nowhere {says}, but {reports}")
    check("each growth refused: " + " ".join(words), wrong, number - first)


def unread(*words, given=b"a line\n", first=False):
    """Each growth refused in turn. Where that is reported as want of memory nothing of the input was read, nothing is printed, and
    no file has a byte. Or so where the command itself reports that for the first time."""
    said = words[0].encode() + b": OutOfMemory\n" if first else b"OutOfMemory\n"
    wrong, number, count = [], 1, 0
    while not wrong:
        shutil.rmtree("unread", ignore_errors=True)
        os.mkdir("unread")
        around = dict(os.environ, FAULT=f"malloc:{number}:12", FAULT_MET="met", LD_PRELOAD=room + "/faults.so")
        with open("input", "wb+") as file:
            file.write(given)
            file.seek(0)
            ran = subprocess.run([program, *words], stdin=file, capture_output=True, env=around, timeout=120)
            read_bytes = os.lseek(file.fileno(), 0, os.SEEK_CUR)
        if not os.path.exists("met"):
            break
        os.remove("met")
        if ran.stderr.endswith(said) and not (first and count):
            count += 1
            written = sum(os.path.getsize(f"{folder}/{name}") for folder, _, names in os.walk("unread") for name in names)
            if (read_bytes, written, ran.stdout, ran.stderr.count(b"\n")) != (0, 0, b"", 1):
                wrong.append(f"growth {number}: {read_bytes} read, {written} written, {ran.stdout} {ran.stderr}")
        number += 1
    if not wrong and read_bytes != len(given):
        wrong.append("where all is granted the input is not read")
    check("unread: " + " ".join(words), wrong, count)


def logs(error, call, channel=None):
    """multilog with each call of a kind failing in turn: its files hold a front of the lines, and all where it says nothing."""
    lines = b"".join(b"line %d of the log, which has some more words\n" % number for number in range(1, 301))
    cause = os.strerror(error).encode()
    reported = re.compile(rb"multilog: (Read: " + cause + rb"|Store: unable to (write|finish|remove) \S+: " + cause + rb"|(word \d+: )?OutOfMemory|"
                          rb"unable to open \./log: " + cause + rb")\n|dtools: OutOfMemory\n")
    wrong, number = [], 1
    while True:
        shutil.rmtree("log", ignore_errors=True)
        ran = faulted(f"{call}:{number}:{error}", "met", ["multilog", "s4096", "n30", "./log", "=log.status"], lines, channel)
        if not os.path.exists("met"):
            break
        os.remove("met")
        names = sorted(name for name in os.listdir("log") if name.startswith("@")) if os.path.isdir("log") else []
        kept = b"".join(open("log/" + name, "rb").read() for name in [*names, "current"] if os.path.exists("log/" + name))
        if not lines.startswith(kept):
            wrong.append(f"{number}: no front")
        if ran is None:
            wrong.append(f"{number}: no end")
            break
        if ran.returncode == 0:
            if kept != lines or ran.stderr:
                wrong.append(f"{number}: status 0, and {len(kept)} bytes, {ran.stderr}")
        elif ran.returncode != 111 or not reported.fullmatch(ran.stderr):
            wrong.append(f"{number}: status {ran.returncode}, {ran.stderr}")
        number += 1
    check(f"multilog: {call}, error {error}", wrong, number - 1)


# The services of svscan, a pair among them: what each one does before and after it has noted its start. What counts as started has
# said its line, so that no TERM comes between.
SERVICES = {"web": ("", "exec sleep 1000"), "db": ("echo said\n", "exec sleep 1000"), "db/log": ("", "exec cat >>lines")}
REPORTED = re.compile(r"svscan: (OutOfMemory|unable to (list|read|lock) \S+(: .*)?|\S+ is listed again|\S+: (unable to (supervise: .*|lock|write (place|process|status|exit|"
                  r"counts): .*|write the trace|write its records|look for its process)|all records are written again|process \d+ still runs|\d+ bytes were "
                  r"not logged))|dtools: OutOfMemory")


def make_services(folder):
    """Each run is written once, before there are threads, and linked: one that is open for writing while another thread begins a
    process can't be executed."""
    for number, (name, (before, after)) in enumerate(SERVICES.items()):
        if not os.path.exists(f"run{number}"):
            with open(f"run{number}", "w") as file:
                file.write(f"#!/bin/sh\n{before}echo $$ >>started\n{after}\n")
            os.chmod(f"run{number}", 0o755)
        os.makedirs(f"{folder}/{name}")
        os.link(f"run{number}", f"{folder}/{name}/run")


def read(path):
    try:
        return open(path).read()
    except OSError:
        return ""


def started(folder):
    return [int(line) for line in read(folder + "/started").split()]


def is_alive(pid, folder):
    """Whether the process lives, and runs in the folder: a number comes again soon where so many processes begin."""
    try:
        there = os.path.samefile(f"/proc/{pid}/cwd", folder)
    except OSError:
        return False
    return there and read(f"/proc/{pid}/stat").rpartition(")")[2].split()[:1] not in ([], ["Z"])


def until(seconds, is_so):
    end = time.monotonic() + seconds
    while not is_so():
        if time.monotonic() > end:
            return False
        time.sleep(0.05)
    return True


def are_all(phase, folders):
    """Whether the records of all of these services have this phase: 3 is up, 4 down."""
    for folder in folders:
        try:
            record = open(folder + "/supervise/status", "rb").read()
        except OSError:
            return False
        if len(record) != 20 or record[19] != phase:
            return False
    return True


def run(*words):
    return subprocess.run([program, *words], capture_output=True, text=True).stdout


def supervised(fault, cycles):
    """svscan with one fault. Gives whether it was met, and what was wrong."""
    here = f"{room}/{fault}"
    make_services(here + "/d")
    folders = [f"{here}/d/{name}" for name in SERVICES]
    around = dict(os.environ, FAULT=fault, FAULT_MET=here + "/met", LD_PRELOAD=room + "/faults.so")
    with open(here + "/reported", "w") as reported:
        svscan = subprocess.Popen([program, "svscan", here + "/d"], env=around, stdin=subprocess.DEVNULL,
                                  stdout=subprocess.DEVNULL, stderr=reported, start_new_session=True)
    wrong = []

    def running():
        return [len({pid for pid in started(folder) if is_alive(pid, folder)}) for folder in folders]

    def lines():
        return read(here + "/d/db/log/lines").count("said\n") == len(started(here + "/d/db"))

    def becomes(what, is_so):
        if not until(120, lambda: svscan.poll() is not None or is_so()):
            wrong.append(f"{what}: {running()} run, {len(started(here + '/d/db'))} starts")

    def are_served():
        return all(subprocess.run([program, "svok", folder]).returncode == 0 for folder in folders)

    # A service whose sockets could not be made runs, and is served from the next round on.
    becomes("up", lambda: running() == [1, 1, 1] and lines() and are_served())
    if svscan.poll() is None:
        # A record that could not be written stays as it was until the next one is. So the services go down and up again
        # until the fault has come, and once more. Growths are too many for that.
        for is_last in [False, True] if cycles else []:
            for words, count, phase in [("-d", 0, 4), ("-u", 1, 3)]:
                is_met = os.path.exists(here + "/met")
                run("svc", words, *folders)
                becomes(words, lambda: running() == [count] * 3 and (not (is_last and is_met) or are_all(phase, folders)))
        becomes("logged", lines)
        run("svc", "-d", *folders)
        becomes("down", lambda: running() == [0, 0, 0])
    reported = read(here + "/reported").splitlines()
    wrong += ["reported: " + line for line in reported if not REPORTED.fullmatch(line)]
    # It may end only before it has begun anything.
    if svscan.poll() is not None and (svscan.returncode != 111 or not reported or any(started(folder) for folder in folders)):
        wrong.append(f"it ended with {svscan.returncode}")
    for pid in {pid for folder in folders for pid in started(folder) if is_alive(pid, folder)}:
        os.kill(pid, signal.SIGKILL)
    if svscan.poll() is None:
        os.killpg(svscan.pid, signal.SIGKILL)
    svscan.wait()
    met = os.path.exists(here + "/met")
    shutil.rmtree(here, ignore_errors=True)
    return met, [f"{fault}: {what}" for what in wrong]


def unannounced(number):
    """From this registration on the door can have none. The last one that is met is that of a connection, which is made before its
    byte is sent: no event announces the byte, and it is taken within a second all the same, and not once the connection was
    silent for too long, which is 5 s. A busy machine gets three tries."""
    for _ in range(3):
        met, heard_in = silent_call(number)
        if heard_in <= 4:
            break
    return met, [f"{number}: the byte is taken after {heard_in:.1f} s"] if heard_in > 4 else []


def silent_call(number):
    """Whether a registration from this one on was refused, and after how many seconds the byte of a call was taken."""
    here = f"{room}/unannounced-{number}"
    os.makedirs(here + "/d/web")
    os.link("run0", here + "/d/web/run")
    around = dict(os.environ, FAULT=f"epoll_ctl:{number}:12:on", FAULT_MET=here + "/met", LD_PRELOAD=room + "/faults.so")
    with open(here + "/reported", "w") as reported:
        svscan = subprocess.Popen([program, "svscan", here + "/d"], env=around, stdin=subprocess.DEVNULL,
                                  stdout=subprocess.DEVNULL, stderr=reported, start_new_session=True)
    folder, met, heard_in = here + "/d/web", here + "/met", 0
    until(60, lambda: os.path.exists(met) or are_all(3, [folder]))
    if not os.path.exists(met):
        with socket.socket(socket.AF_UNIX) as caller:
            caller.connect(folder + "/supervise/control")
            time.sleep(0.5)
            caller.send(b"d")
            begin = time.monotonic()
            until(60, lambda: are_all(4, [folder]))
            heard_in = time.monotonic() - begin
    for pid in started(folder):
        if is_alive(pid, folder):
            os.kill(pid, signal.SIGKILL)
    if svscan.poll() is None:
        os.killpg(svscan.pid, signal.SIGKILL)
    svscan.wait()
    is_met = os.path.exists(met)
    shutil.rmtree(here, ignore_errors=True)
    return is_met, heard_in


def rounds(fault):
    """svscan of one round with one fault: it ends, and nothing that it started is left. Gives whether it was met, and what was wrong."""
    here = f"{room}/rounds-{fault}"
    make_services(here + "/d")
    ran = faulted(fault, here + "/met", ["svscan", here + "/d", "1"])
    wrong = []
    if ran is None:
        wrong.append("no end")
    else:
        reported = ran.stderr.decode().splitlines()
        wrong += ["reported: " + line for line in reported if not REPORTED.fullmatch(line)]
        if ran.returncode not in (0, 111) or (ran.returncode == 111 and not reported):
            wrong.append(f"it ended with {ran.returncode}")
    left = [pid for name in SERVICES for pid in started(f"{here}/d/{name}") if is_alive(pid, f"{here}/d/{name}")]
    wrong += [f"process {pid} is left" for pid in left]
    for pid in left:
        os.kill(pid, signal.SIGKILL)
    met = os.path.exists(here + "/met")
    shutil.rmtree(here, ignore_errors=True)
    return met, [f"{fault}, one round: {what}" for what in wrong]


def in_turn(name, trial, workers):
    """The trial with the first, the second, .. of its faults, so many side by side, until one is not met. Gives what waits for
    all of them and checks that nothing was wrong."""
    numbers, lock = iter(range(1, 5000)), threading.Lock()
    wrong, met, unmet = [], [], []

    def work():
        while not unmet:
            with lock:
                number = next(numbers)
            was_met, bad = trial(number)
            (met if was_met else unmet).append(number)
            wrong.extend(bad)

    threads = [threading.Thread(target=work) for _ in range(workers)]
    for thread in threads:
        thread.start()
    return lambda: [thread.join() for thread in threads] and check(name, wrong, len(met))


def commands():
    """The commands and multilog."""
    os.makedirs("env")
    open("env/A", "w").write("x y")
    open("env/B", "w").write("it's")
    run("svscan", "d", "1")
    for words in ["tai64n", "tai64nlocal", "sim table", "trace d/web/supervise/trace --break phase:gone",
                  "svstat d/web d/db nowhere", "svstat --json d/web d/db", "svstat --metrics d/web d/db", "svc -u d/web d/db",
                  "svc -W -u d/web", "svc -du -t -- -x d/web", "svok d/web", "why d/web",
                  "wait -x -t 0 d/web", "wait -r -t 0 d/web", "restart -t 0 d/web", "envdir env true", "envdir --shell env", "help svc"]:
        starves(*words.split())
    for words in ["multilog s4096 n1 ./log", "multilog ./log t", "multilog ./log ./log", "svc -uy d/web"]:
        starves(*words.split(), are_wrong=True)
    starves("readproctitle", "." * 40, silent=True)
    starves("trace", "d/web/supervise/trace", silent=True, says=b"trace: line 3: OutOfMemory\n")
    for given in [EVENTS, SCANS, AGAIN]:
        starves("sim", given=given)
    starves("sim", given=FULL, last=20)
    unread("multilog", "e", "-*", "+* *", "=unread/status", "./unread/log")
    unread("readproctitle", "." * 40, first=True)
    unread("sim", given=EVENTS, first=True)
    for error, call in [(5, "read"), (5, "write"), (5, "open"), (5, "fsync"), (5, "rename"), (5, "flock"), (5, "getdents"),
                        (28, "mkdir"), (28, "write"), (28, "open"), (24, "open"), (12, "malloc")]:
        logs(error, call)
    # A logger waits only if it has a channel.
    os.mkfifo("channel")
    channel = os.open("channel", os.O_RDWR)
    for error in [5, 12]:
        logs(error, "poll", channel)
    os.close(channel)


def svscans():
    """svscan, all trials side by side: they wait more than they work."""
    waiting = [in_turn("svscan DIR 1: each growth refused", lambda number: rounds(f"malloc:{number}:12"), 16),
               in_turn("svscan: each growth refused", lambda number: supervised(f"malloc:{number}:12", False), 32),
               in_turn("svscan: a connection that no event announces", unannounced, 1)]
    for call, error in [("thread", 11), ("spawn", 11), ("accept", 24), ("socket", 24), ("pipe", 24), ("open", 24), ("open", 5),
                        ("read", 5), ("write", 28), ("rename", 28), ("unlink", 5), ("mkdir", 28), ("fchmod", 5), ("flock", 5),
                        ("bind", 13), ("listen", 12), ("epoll_create", 24), ("epoll_ctl", 12), ("fcntl", 5), ("getdents", 5),
                        ("eventfd", 24), ("poll", 12)]:
        trial = functools.partial(lambda call, error, number: supervised(f"{call}:{number}:{error}", True), call, error)
        waiting.append(in_turn(f"svscan: {call}, error {error}", trial, 4))
    for wait in waiting:
        wait()


make_services("d")
svscans() if sys.argv[2:] == ["svscan"] else commands()
print(f"faults: {checked} checks, {failed} failed")
sys.exit(failed > 0)

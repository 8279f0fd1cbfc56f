"""Measures suites of supervision side by side; bench/svscan.sh says what."""
import glob
import os
import shutil
import signal
import statistics
import subprocess
import sys
import time

program, room, count, starts = sys.argv[1], sys.argv[2], int(sys.argv[3]), sys.argv[4]


class Suite:
    """One suite: how its scanner starts, what its supervisors are called, how it is asked to bring services down and to give
    them up, its logger."""

    def __init__(self, name, scanner, supervisors, down, end, logger):
        self.name, self.scanner, self.supervisors = name, scanner, supervisors
        self.down, self.end, self.logger = down, end, logger

    def is_there(self):
        return all(shutil.which(words[0]) for words in (self.scanner, self.down))


SUITES = [
    Suite(
        "dtools", [program, "svscan"], ["dtools"], [program, "svc", "-d"], [program, "svc", "-dx"],
        f"'{program}' multilog s16777215 n100 ./main",
    ),
    Suite(
        "daemontools", ["svscan"], ["svscan", "supervise"], ["svc", "-d"], ["svc", "-dx"], "multilog s16777215 n100 ./main"
    ),
    Suite(
        "runit", ["runsvdir"], ["runsvdir", "runsv"], ["sv", "-w", "0", "down"], ["sv", "-w", "0", "exit"], "svlogd ./main"
    ),
    Suite(
        "s6", ["s6-svscan", "-c", "4000"], ["s6-svscan", "s6-supervise"], ["s6-svc", "-d"], ["s6-svc", "-xd"],
        "s6-log n100 s16777215 ./main",
    ),
]

# What one process reaches that only begins the children (starts.c), with one table of descriptors or several; and one that
# writes beside that what svscan writes of each.
LEAST = [
    Suite(f"starts {how}", [starts, how], ["starts"], [starts], ["kill"], SUITES[0].logger)
    for how in ("each", "apart", "whole")
]

# How often all come up, the suites in turn.
TURNS = 5


def write_script(path, text):
    os.makedirs(os.path.dirname(path), exist_ok=True)
    with open(path, "w") as script:
        script.write(f"#!/bin/sh\n{text}\n")
    os.chmod(path, 0o755)


def wait_until(holds, rest=0.0002, most=120):
    end = time.monotonic() + most
    while not holds():
        if time.monotonic() > end:
            raise TimeoutError
        time.sleep(rest)


def read(path):
    try:
        with open(path) as file:
            return file.read()
    except OSError:
        return ""


def start(suite, folder):
    """Starts the scanner over a folder, in a session of its own."""
    reported = open(f"{folder}.reported", "w")
    return subprocess.Popen(
        [*suite.scanner, folder], stdin=subprocess.DEVNULL, stdout=reported, stderr=reported, start_new_session=True
    )


def processes():
    """The number, name and words of every process."""
    for path in glob.glob("/proc/[0-9]*"):
        name, words = read(f"{path}/comm").strip(), read(f"{path}/cmdline").split("\0")
        if words != [""]:
            yield int(path[6:]), name, words


def supervisors(suite):
    """The processes that supervise, and not the loggers, which may be the same program."""
    return [
        number
        for number, name, words in processes()
        if name in suite.supervisors and "multilog" not in words
    ]


def end_all(suite):
    """Ends all that the suite started, by kill."""
    numbers = supervisors(suite)
    for number in numbers:
        send(number, signal.SIGKILL)
    for number, _, words in processes():
        if words[:2] == ["sleep", "100000"] or os.path.basename(words[0]) in ("multilog", "svlogd", "s6-log"):
            send(number, signal.SIGKILL)
        if "multilog" in words[:2]:
            send(number, signal.SIGKILL)
    time.sleep(1)


def send(number, sign):
    try:
        os.kill(number, sign)
    except ProcessLookupError:
        pass


def memory(numbers):
    """The proportional share of memory of processes, in KB."""
    return sum(
        int(line.split()[1])
        for number in numbers
        for line in read(f"/proc/{number}/smaps_rollup").splitlines()
        if line.startswith("Pss:")
    )


def nanoseconds(numbers):
    """What the threads of processes have run so far."""
    return sum(
        int((read(path) or "0").split()[0])
        for number in numbers
        for path in glob.glob(f"/proc/{number}/task/*/schedstat")
    )


def share_of_core(numbers, seconds):
    """What processes take of a core, in percent, over some seconds."""
    before = nanoseconds(numbers)
    time.sleep(seconds)
    return (nanoseconds(numbers) - before) / seconds / 1e7


def up(folder, names, begin):
    """Milliseconds until all services of a folder have said that they run."""
    for name in names:
        wait_until(lambda: read(f"{folder}/{name}/up").endswith("\n"))
    return 1000 * (time.monotonic() - begin)


def make(folder, suite, logged):
    """A folder of services that say that they run and sleep, with loggers or without."""
    names = [f"s{i:04}" for i in range(count)]
    for name in names:
        write_script(f"{folder}/{name}/run", "echo $$ >up\nexec sleep 100000")
        if logged:
            os.makedirs(f"{folder}/{name}/log/main")
            write_script(f"{folder}/{name}/log/run", f"exec {suite.logger}")
    return names


def bring_up(suite, logged):
    """A folder of which all is up, its services, and how many milliseconds that took."""
    folder = f"{room}/{suite.name.replace(' ', '-')}-{'pairs' if logged else 'services'}"
    names = make(folder, suite, logged)
    begin = time.monotonic()
    start(suite, folder)
    return folder, names, up(folder, names, begin)


def bring_up_in_turn(suites, logged):
    """How long until all is up: the median of some times, between the least and the most, the suites in turn."""
    took = {suite.name: [] for suite in suites}
    for _ in range(TURNS):
        for suite in suites:
            try:
                took[suite.name].append(bring_up(suite, logged)[2])
            except TimeoutError:
                print(f"{suite.name}: not all came up within two minutes", flush=True)
            time.sleep(1)
            end_all(suite)
            for folder in glob.glob(f"{room}/*"):
                shutil.rmtree(folder, ignore_errors=True)
    for suite in suites:
        what = f"{count} {'pairs' if logged else 'services'} are up"
        times = took[suite.name] or [float("nan")]
        for figure, of in ((statistics.median(times), ""), (min(times), ", least"), (max(times), ", most")):
            report(suite, what + of, "ms", figure)


def services(suite):
    """1,000 services: memory, idle, down, and for dtools what adopting them takes."""
    folder, names, _ = bring_up(suite, False)
    time.sleep(8)
    numbers = supervisors(suite)
    report(suite, f"memory a service", "KB", memory(numbers) / count)
    report(suite, "idle, of a core over 20 s", "%", share_of_core(numbers, 20))
    took = []
    for name in names[:: max(1, count // 20)][:20]:
        number = read(f"{folder}/{name}/up").strip()
        begin = time.monotonic()
        subprocess.run([*suite.down, f"{folder}/{name}"], check=True)
        wait_until(lambda: not os.path.exists(f"/proc/{number}"))
        took.append(1000 * (time.monotonic() - begin))
    report(suite, "down, median of 20", "ms", statistics.median(took))
    if suite.name == "dtools":
        for number in numbers:
            send(number, signal.SIGKILL)
        time.sleep(1)
        start(suite, folder)
        time.sleep(8)
        report(suite, f"{count} adopted, of a core over 20 s", "%", share_of_core(supervisors(suite), 20))
    end_all(suite)


def end_in_turn(suites):
    """How long until all services have ended after one command for all: the median of some times, the suites in turn."""
    took = {suite.name: [] for suite in suites}
    for _ in range(TURNS):
        for suite in suites:
            folder, names, _ = bring_up(suite, False)
            time.sleep(3)
            numbers = [read(f"{folder}/{name}/up").strip() for name in names]
            least = [str(number) for number in supervisors(suite)] if suite in LEAST else []
            begin = time.monotonic()
            asked = one_by_one(suite, least or [f"{folder}/{name}" for name in names])
            for number in numbers:
                wait_until(lambda: not os.path.exists(f"/proc/{number}"))
            took[suite.name].append(1000 * (time.monotonic() - begin))
            asked.wait()
            end_all(suite)
            shutil.rmtree(folder, ignore_errors=True)
    for suite in suites:
        report(suite, f"{count} are ended by one command", "ms", statistics.median(took[suite.name]))


def one_by_one(suite, targets):
    """Asks for the end of services: by one command, or by one for each where it takes only one."""
    if suite.name == "s6":
        return subprocess.Popen(["xargs", "-n1", *suite.end], stdin=stream_of(targets))
    return subprocess.Popen([*suite.end, *targets], stdout=subprocess.DEVNULL)


def stream_of(lines):
    """A pipe from which these lines are read."""
    reader, writer = os.pipe()
    with open(writer, "w") as out:
        out.write("".join(f"{line}\n" for line in lines))
    return reader


def pairs(suite):
    """1,000 pairs: what their supervisors take of memory, and of a core."""
    bring_up(suite, True)
    time.sleep(8)
    numbers = supervisors(suite)
    report(suite, "memory a pair", "KB", memory(numbers) / count)
    report(suite, "idle with pairs, of a core over 20 s", "%", share_of_core(numbers, 20))
    end_all(suite)


def one_pair(suite):
    """One pair: a line from the service to its log, and a flow of 300 MB."""
    folder = f"{room}/{suite.name}-pair"
    home = f"{folder}/web"
    os.makedirs(f"{home}/log/main")
    with open(f"{home}/log/main/config", "w") as config:
        config.write("s16777215\nn100\n")
    os.mkfifo(f"{home}/lines")
    write_script(f"{home}/run", "exec cat lines")
    write_script(f"{home}/log/run", f"exec {suite.logger}")
    start(suite, folder)
    current = f"{home}/log/main/current"
    with open(f"{home}/lines", "wb", buffering=0) as lines:
        wait_until(lambda: os.path.exists(current))
        time.sleep(0.5)
        took = []
        for _ in range(1000):
            size = os.stat(current).st_size
            begin = time.monotonic_ns()
            lines.write(b"a line of a service, as it may be\n")
            while os.stat(current).st_size == size:
                pass
            took.append((time.monotonic_ns() - begin) / 1000)
            time.sleep(0.001)
        report(suite, "a line to its log, median of 1,000", "us", statistics.median(took))
        block = (b"a" * 99 + b"\n") * 320
        before = logged(home)
        begin = time.monotonic()
        total = 0
        while total < 300_000_000:
            total += lines.write(block)
        try:
            wait_until(lambda: logged(home) >= before + total, 0.001)
            report(suite, "a pair's flow", "MB/s", total / (time.monotonic() - begin) / 1e6)
        except TimeoutError:
            print(f"{suite.name}: the flow does not end", flush=True)
    end_all(suite)


def logged(home):
    """How many bytes are in a log."""
    try:
        return sum(os.path.getsize(name) for name in glob.glob(f"{home}/log/main/[@c_]*"))
    except FileNotFoundError:
        return 0


def report(suite, what, unit, figure):
    print(f"{what:44} {suite.name:12} {figure:10.3f} {unit}", flush=True)


there = [suite for suite in SUITES if suite.is_there()]
for are_pairs in (False, True):
    bring_up_in_turn(there + LEAST, are_pairs)
end_in_turn(there + LEAST[-1:])
for suite in there:
    for measure in (services, pairs, one_pair):
        try:
            measure(suite)
        except TimeoutError:
            print(f"{suite.name}: {measure.__name__} did not come about within two minutes", flush=True)
            end_all(suite)
        for folder in glob.glob(f"{room}/*"):
            shutil.rmtree(folder, ignore_errors=True)

"""What soak.py and survive.py see of processes: the files below /proc, and the state of a process."""

import os

# What svscan has in its memory of a pair's output, at most: what it read at once, its mailbox, and what it writes at once.
BOUND = 131_072


def read(path):
    """All bytes of a file, none if it can't be read."""
    try:
        with open(path, "rb") as file:
            return file.read()
    except OSError:
        return b""


def state(pid):
    """The letter of the state of a process (proc(5)), empty if there is none."""
    fields = read(f"/proc/{pid}/stat").rpartition(b")")[2].split()
    return fields[0].decode() if fields else ""


def is_alive(pid):
    return state(pid) not in ("", "Z", "X")


def runs_in(pid, folder):
    """Whether the folder that a process is in is this one."""
    try:
        return os.path.realpath(f"/proc/{pid}/cwd") == os.path.realpath(folder)
    except OSError:
        return False

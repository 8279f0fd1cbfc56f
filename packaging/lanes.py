"""lanes.py: runs the kit's own `rt ci` in this folder, and says which crate comes next, and on how many processors.

`rt ci` goes by the lines of the crates. Here it goes by the seconds that each took, measured, so that what the most work
waits for comes first; and that crate gets as many processors as its share of all that is left: the others have the rest.
Of the two compilers only the one runs whose program is installed. Where the kit is not as it was, `rt ci` goes by its own.
"""

import importlib.machinery
import importlib.util
import os
import shutil
import sys
from concurrent.futures import FIRST_COMPLETED, ThreadPoolExecutor, wait

# Processor seconds of each crate's proof, by one job; of one that is not here its lines say.
SECONDS = {
    "tai_status": 142, "sup_core": 204, "star_match": 40, "mlog_script": 163, "mlog_files": 81,
    "mlog_line": 82, "mlog_core": 119, "svc_mail": 91, "sup_trace": 142, "svc_station": 171, "svc_house": 117,
    "env_title": 101, "scan_table": 281, "suite_lines": 115, "suite_core": 184, "svc_relay": 43,
    "trace_words": 40, "cmd_base": 23, "svc_record": 108, "svc_places": 20, "svc_client": 80, "svc_world": 205, "svc_system": 160,
    "svc_door": 98, "svc_host": 449, "svc_maker": 260, "cmd_sim": 109, "cmd_trace": 100, "cmd_filters": 30, "cmd_help": 27,
    "cmd_envdir": 181, "cmd_multilog": 278, "cmd_svc": 120, "cmd_local": 113, "cmd_why": 339,
    "cmd_report": 152, "cmd_page": 200, "cmd_wait": 63, "svscan_rounds": 130, "cmd_svscan": 430,
    "dtools": 280,
}


def load(path):
    loader = importlib.machinery.SourceFileLoader("rt", path)
    made = importlib.util.module_from_spec(importlib.util.spec_from_loader("rt", loader))
    sys.modules["rt"] = made
    loader.exec_module(made)
    return made


def seconds_of(key, lines):
    """How long a task takes. A crate's tests and edits are not there, or wait until all else is done."""
    crate, kind = key
    return SECONDS.get(crate, lines / 15) if kind == "proof" else lines / 1000


def in_lanes(tasks):
    """In the place of the scheduler's own: tasks by key, each of what it waits for, its lines, its memory, and its call."""
    processors, memory = int(os.environ.get("RT_JOBS") or rt.processors()), 0.85 * rt.free()
    takes = {key: seconds_of(key, task[1]) for key, task in tasks.items()}
    behind = dict.fromkeys(tasks, 0)
    for key in reversed([*tasks]):
        behind[key] += takes[key]
        for below in tasks[key][0]:
            behind[below] = max(behind[below], behind[key])
    left, running, given = sorted(tasks, key=lambda key: -behind[key]), {}, {}
    with ThreadPoolExecutor(processors) as pool:
        while left or running:
            work = sum(takes[key] for key in left) or 1
            for key in [it for it in left if all(below in given for below in tasks[it][0])]:
                _, _, needs, call = tasks[key]
                idle = processors - sum(jobs for _, _, jobs in running.values())
                room = memory - sum(held for _, held, _ in running.values())
                if idle > 0 and (not running or needs <= room):
                    # (what all else waits for shares processors with the others where too few are idle)
                    jobs = min(4, max(1, round(1.2 * processors * behind[key] / work)))
                    while jobs > 1 and needs * (1 + 0.6 * (jobs - 1)) > room:
                        jobs -= 1
                    left.remove(key)
                    running[pool.submit(call, given, jobs)] = key, needs * (1 + 0.6 * (jobs - 1)), min(jobs, idle)
            for it in wait(running, return_when=FIRST_COMPLETED).done:
                given[running.pop(it)[0]] = it.result()
    return given


def compile_once(compile_by):
    """Compiling a program by LLVM, and leaving out the gate's second compiler."""
    return lambda crate, backend, words, to: compile_by(crate, backend, words, to) if backend == "llvm" else 0


rt = load(os.path.realpath(shutil.which("rt")))
if all(hasattr(rt, name) for name in ("in_lanes", "processors", "free")):
    rt.in_lanes = in_lanes
if hasattr(rt.Crate, "compile_by"):
    rt.Crate.compile_by = compile_once(rt.Crate.compile_by)
sys.exit(rt.main(["ci"]))

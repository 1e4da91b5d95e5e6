"""When each job runs: each task in a process of its own, as many in parallel as there are processors and memory allows.

Proofs come first, those with the longest chain of others after them before the rest, and none overtakes one that waits
for memory, so none starves. Edits take a place only if no proof waits for one, and leave one free as long as there are
proofs to come.
"""

import contextlib
import ctypes
import os
import pickle
import signal
import sys
import time
import traceback
from typing import Any, Callable, Dict, Iterable, List

import kit

PR_SET_PDEATHSIG = 1
# (what a kit reckons for a check of a library was measured at 1.6 to 8 times what it takes: what some take beyond this
# share, at most 700 MB, is in what is kept free)
SHARE_OF_MEMORY = 0.85
SHARE_OF_RECKONING = 0.5
# seconds: how often to check for memory that other programs may free, and how long a task that is alone waits for it
AGAIN, PATIENCE = 1, 300


class Task:
    """A task of `rt ci`: what it waits for, its size in lines, its memory, and a call that gets what was given and how
    many jobs it may use."""

    def __init__(self, key: Any, waits: List[Any], lines: int, memory: int, call: Callable[..., Any]) -> None:
        self.key, self.waits, self.lines, self.memory, self.call = key, waits, lines, SHARE_OF_RECKONING * memory, call
        self.name, self.part = key
        self.is_edits = self.part == "edits"
        self.behind = 0
        self.taken = self.places = self.jobs = self.began = 0


def chained(tasks: Dict[Any, "Task"]) -> None:
    """Sets the work that waits for each task, its own included. A task comes after those that it waits for."""
    for task in reversed([*tasks.values()]):
        task.behind += task.lines
        for wait in task.waits:
            tasks[wait].behind = max(tasks[wait].behind, task.behind)


def held_below(processes: Iterable[int]) -> Dict[int, int]:
    """The bytes that the largest of all that each of these processes started holds now. (A check copies itself for a
    while, and the copies share what they hold.)"""
    above, held, most = {}, {}, dict.fromkeys(processes, 0)
    for name in filter(str.isdigit, os.listdir("/proc")):
        # (one may end meanwhile)
        with contextlib.suppress(OSError):
            with open(f"/proc/{name}/stat", encoding="utf-8", errors="replace") as file:
                words = file.read().rpartition(")")[2].split()
            above[int(name)], held[int(name)] = int(words[1]), int(words[21]) * os.sysconf("SC_PAGE_SIZE")
    for process, size in held.items():
        while process and process not in most:
            process = above.get(process, 0)
        if process:
            most[process] = max(most[process], size)
    return most


class Places:
    """The places in which tasks run, and the tasks that run or wait."""

    def __init__(self, room: str, report: Any) -> None:
        self.logs, self.report = f"{room}/logs", report
        os.makedirs(self.logs, exist_ok=True)
        self.count = int(os.environ.get("RT_JOBS") or 0) or kit.rt().processors()
        self.memory = SHARE_OF_MEMORY * kit.rt().free()
        self.kept_free = self.memory / SHARE_OF_MEMORY - self.memory
        self.given, self.running, self.short_since = {}, {}, None

    def run(self, table: Dict[Any, Any]) -> Dict[Any, Any]:
        """Runs the tasks of a table by `rt ci` and returns what each gave."""
        tasks = {key: Task(key, *facts) for key, facts in table.items()}
        chained(tasks)
        self.left = sorted(tasks.values(), key=lambda task: -task.behind)
        self.report.begin([task for task in self.left if task.lines], self.count)
        while self.left or self.running:
            time.sleep(AGAIN if self.short_since else 0)
            self.start_what_can()
            if self.running:
                self.wait_for_one()
        return self.given

    def start_what_can(self) -> None:
        """Starts tasks in order until the places or the memory are taken. Those with nothing to do are done here and at
        once."""
        while True:
            ready = [task for task in self.left if all(below in self.given for below in task.waits)]
            empty = next((task for task in ready if not task.lines), None)
            if empty:
                self.left.remove(empty)
                self.given[empty.key] = empty.call(self.given, 1)
                continue
            proofs = [task for task in ready if not task.is_edits]
            chosen = (proofs or ready)[:1]
            if not chosen or not self.has_place(chosen[0]):
                return
            places = 1 if chosen[0].is_edits else max(1, self.idle() // len(ready))
            # (where only proofs are left and each has a place, they share all places, since some would stand idle when
            # one has ended before another)
            is_end = [task for task in self.left if task.lines] == proofs and len(proofs) <= self.idle()
            self.start(chosen[0], places, self.count if is_end else places)

    def idle(self) -> int:
        """How many places are free."""
        return self.count - sum(task.places for task in self.running.values())

    def has_place(self, task: Task) -> bool:
        """Whether a task may start now."""
        is_last = not any(not task.is_edits for task in [*self.left, *self.running.values()])
        kept_free = 1 if task.is_edits and not is_last and self.count > 1 else 0
        tried = sum(task.is_edits for task in self.running.values())
        if self.idle() < 1 or task.is_edits and tried >= self.count - kept_free:
            return False
        return self.has_memory(task)

    def free(self) -> int:
        """The memory that a further task may take: what is free now, without what is kept free and what those at work
        are still to take."""
        held = held_below(self.running)
        to_come = sum(max(0, task.taken - held[process]) for process, task in self.running.items())
        return kit.rt().free() - self.kept_free - to_come

    def has_memory(self, task: Task) -> bool:
        """Whether there is memory for a task. One that is alone waits only for what other programs hold, and not for
        ever."""
        if task.memory <= self.free():
            self.short_since = None
            return True
        self.short_since = self.short_since or time.time()
        return not self.running and (task.memory > self.memory or time.time() - self.short_since > PATIENCE)

    def start(self, task: Task, places: int, jobs: int) -> None:
        """Starts a task in a process of its own."""
        self.left.remove(task)
        self.short_since = None
        free = self.free()
        task.jobs = min(4, jobs, max(1, 1 + int((free / task.memory - 1) / 0.6)))
        task.places = min(places, task.jobs)
        task.taken = task.memory * (1 + 0.6 * (task.jobs - 1))
        task.began = time.time()
        sys.stdout.flush()
        process = os.fork()
        if process == 0:
            self.work(task)
        self.running[process] = task

    def path(self, task: Task, ending: str) -> str:
        """The path of a file of a task."""
        return f"{self.logs}/{task.name}.{task.part}.{ending}"

    def work(self, task: Task) -> None:
        """In a process of its own: does the task, leaves what it gave in a file, and ends."""
        status = 1
        try:
            ctypes.CDLL(None).prctl(PR_SET_PDEATHSIG, signal.SIGKILL)
            log = os.open(self.path(task, "log"), os.O_WRONLY | os.O_CREAT | os.O_TRUNC)
            os.dup2(log, 1)
            os.dup2(log, 2)
            given = task.call(self.given, task.jobs)
            sys.stdout.flush()
            with open(self.path(task, "given"), "wb") as file:
                pickle.dump(given, file)
            status = 0
        except BaseException:
            traceback.print_exc()
            sys.stderr.flush()
        finally:
            os._exit(status)

    def wait_for_one(self) -> None:
        """Waits until a task has ended. Where another waits for memory, looks whether one has."""
        process, status, usage = os.wait4(-1, os.WNOHANG if self.short_since else 0)
        task = self.running.pop(process, None)
        if task is None:
            return
        given = False
        if status == 0:
            with open(self.path(task, "given"), "rb") as file:
                given = pickle.load(file)
        self.given[task.key] = given
        with open(self.path(task, "log"), encoding="utf-8", errors="replace") as file:
            said = file.read()
        self.report.end(
            task,
            given,
            said,
            status,
            usage,
            len([waiting for waiting in self.left if waiting.lines]) + len(self.running),
        )

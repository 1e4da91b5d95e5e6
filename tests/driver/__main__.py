"""Runs the cases of tests/ over a program, in parallel; tests/README.md describes them."""

from __future__ import annotations

import argparse
import contextlib
import multiprocessing
import os
import pty
import shutil
import signal
import subprocess
import sys
import tempfile
from concurrent.futures import ProcessPoolExecutor, as_completed
from concurrent.futures.process import BrokenProcessPool
from dataclasses import dataclass
from importlib.machinery import SourceFileLoader
from importlib.util import module_from_spec, spec_from_loader
from types import ModuleType
from typing import Callable, List, NoReturn, Optional

sys.dont_write_bytecode = True
sys.path.insert(0, f"{os.path.dirname(os.path.dirname(os.path.realpath(__file__)))}/library")

import damaged  # noqa: E402
import editors  # noqa: E402
import explained  # noqa: E402
import others  # noqa: E402
import placed  # noqa: E402
import runs  # noqa: E402
import scripts  # noqa: E402
import sessions  # noqa: E402
import written  # noqa: E402
from cases import TESTS, TOP, Case, cases_of, files_of  # noqa: E402
from progress import Progress  # noqa: E402

RELEASED = f"{TOP}/released/pascal"
# which programs the cases of a folder are for
FOLDERS = {
    "cases": ("pascal",),
    "compiled": ("pascal", "pascal_reference", "pascal_slots"),
    "programs": ("pascal", "pascal_reference", "pascal_slots"),
    "stops": ("pascal", "pascal_slots"),
    "exact": ("pascal",),
    "shapes": ("pascal",),
    "damaged": ("pascal",),
    "phases": ("pascal_reference",),
    "messages": ("pascal",),
    "editors": ("pascal",),
    "sessions": ("pascal",),
    "places": ("pascal_reference",),
    "explain": ("pascal",),
    "others": ("pascal",),
    "written": ("pascal",),
    "scripts": ("pascal",),
}
# what is tried of pages of docs/ that are data or show sessions, of messages for editors, of damaged images, of homes
# of temporaries, and of files that are written
TRIALS = {
    "explain": explained.trials,
    "others": others.trials,
    "sessions": sessions.trials,
    "editors": editors.trials,
    "damaged": damaged.trials,
    "places": placed.trials,
    "written": written.trials,
}  # fmt: skip
INTERRUPTED = 130
PROCESSORS = int(os.environ.get("RT_JOBS") or 0) or len(os.sched_getaffinity(0))


def fail(why: str) -> NoReturn:
    """Ends with a message, before any case is run."""
    print(f"test: {why}", file=sys.stderr)
    sys.exit(1)


@dataclass
class Job:
    """A case, or a condition of the scripts, that is to be tried."""

    folder: str
    place: str
    name: str
    run: Callable[[], List[str]]


def job_of(folder: str, case: Case, program: str, has_terminals: bool) -> Job:
    """The job of a case."""
    return Job(folder, case.place, case.name, lambda: runs.run(case, program, has_terminals))


def shapes_job(shapes: ModuleType, case: object, program: str) -> Job:
    """A text of tests/shapes, within its limits."""

    def run() -> List[str]:
        outcome = shapes.outcome_of(program, case)
        if outcome == case.outcome:
            return []
        return [runs.difference("it", outcome or "accepted", case.outcome or "accepted")]

    return Job("shapes", "tests/shapes", case.shape, run)


def shapes_jobs(program: str) -> List[Job]:
    """The texts of tests/shapes, which is a program of its own too."""
    loader = SourceFileLoader("shapes", f"{TESTS}/shapes")
    shapes = module_from_spec(spec_from_loader(loader.name, loader))
    sys.modules[loader.name] = shapes
    loader.exec_module(shapes)
    return [shapes_job(shapes, case, program) for case in shapes.CASES]


def jobs_of(folder: str, program: str, has_terminals: bool) -> List[Job]:
    """What a folder has to try over a program."""
    if folder == "scripts":
        return [
            Job(folder, "tests/driver/scripts.py", condition.__name__.replace("_", " "), condition)
            for condition in scripts.CONDITIONS
        ]
    if folder == "shapes":
        return shapes_jobs(program)
    if folder in TRIALS:
        return [Job(folder, trial.place, trial.name, trial.run) for trial in TRIALS[folder](program)]
    return [job_of(folder, case, program, has_terminals) for path in files_of(folder) for case in cases_of(path)]


# ---- what is chosen


class Choice:
    """What the words of the command line choose: a program, folders, files, and words of names."""

    def __init__(self, program: Optional[str], words: List[str]) -> None:
        self.program, self.folders, self.files, self.words = program, set(), set(), []
        for word in words:
            self.take(word)
        self.program = os.path.abspath(self.program or RELEASED)

    def take(self, word: str) -> None:
        """Sorts a word of the command line: a folder, a file, the program, or a word of names."""
        path, name = os.path.realpath(word), word.rstrip("/").split("/")[-1]
        if name in FOLDERS and (name == word.rstrip("/") or os.path.dirname(path) == TESTS):
            self.folders.add(name)
        elif path.startswith(f"{TESTS}/") and path.endswith(".txt") and os.path.isfile(path):
            self.files.add(os.path.relpath(path, TOP))
        elif os.path.isfile(word) and os.access(word, os.X_OK):
            if self.program:
                fail(f"one program at a time: {self.program}, {word}")
            self.program = word
        elif "/" in word:
            fail(f"{word} is no program that can be run, no folder of tests/ and no file of cases")
        else:
            self.words.append(word)

    def has_folder(self, folder: str) -> bool:
        """Whether a folder is chosen as a whole."""
        return folder in self.folders or not self.folders and not self.files

    def has(self, job: Job) -> bool:
        """Whether a job is chosen: by its folder or file, and by a word of its name, if any are given."""
        in_place = self.has_folder(job.folder) or job.place.split(":")[0] in self.files
        return in_place and (not self.words or any(word in job.name for word in self.words))


# ---- the program


def must_run(program: str) -> None:
    """Ends with a line if the program can't be run. (So no case waits for a launcher that has to build it.)"""
    if not os.path.isfile(program):
        fail(f"there is no program {program}")
    try:
        ran = subprocess.run([program, "--help"], stdout=subprocess.DEVNULL, check=False)
    except OSError as error:
        fail(f"{program} can't be run here: {error.strerror}")
    if ran.returncode:
        fail(f"{program} --help ended with status {ran.returncode}")


def is_of_other_sources() -> bool:
    """Whether the released program was built of other sources than the tree's."""
    ran = subprocess.run([f"{TOP}/tools/sources_sum", "pascal"], stdout=subprocess.PIPE, text=True, check=False)
    with contextlib.suppress(OSError), open(f"{RELEASED}.sum", encoding="utf-8") as file:
        return file.readline() != ran.stdout
    return True


# ---- the run

jobs: List[Job] = []
INTERRUPTIONS = (signal.SIGINT, signal.SIGTERM, signal.SIGHUP)


def handle(what: object) -> None:
    """Sets what is done if this process is interrupted."""
    for interruption in INTERRUPTIONS:
        signal.signal(interruption, what)


def interrupt(room: str) -> None:
    """Ends the run at once, with the processes that run cases, and leaves nothing behind."""
    handle(signal.SIG_IGN)
    for child in multiprocessing.active_children():
        child.kill()
        child.join()
    shutil.rmtree(room, ignore_errors=True)
    print("\ntest: interrupted", file=sys.stderr, flush=True)
    os._exit(INTERRUPTED)


def tried(at: int) -> List[str]:
    """Tries the job with this number, in a process of its own. (It began as a copy of this one, and has all jobs.)"""
    return jobs[at].run()


def run_all(progress: Progress, processes: int) -> bool:
    """Runs all jobs, and returns whether none failed."""
    with ProcessPoolExecutor(processes, multiprocessing.get_context("fork"), handle, (signal.SIG_DFL,)) as many:
        begun = {many.submit(tried, at): job for at, job in enumerate(jobs)}
        for done in as_completed(begun):
            job = begun[done]
            progress.ended(job.folder, job.place, job.name, done.result())
    return progress.end()


def terminals() -> bool:
    """Whether there are terminals to hold conversations at."""
    try:
        for terminal in pty.openpty():
            os.close(terminal)
    except OSError:
        return False
    return True


def introduce(program: str, kind: str, choice: Choice, has_terminals: bool) -> None:
    """Tells what is run over which program, and what is left out."""
    told = os.path.relpath(program) if program.startswith(f"{os.getcwd()}/") else program
    print(f"{len(jobs)} case{'' if len(jobs) == 1 else 's'} over {told}", flush=True)
    if program == RELEASED and is_of_other_sources():
        print("it was built of other sources than those in the tree")
    others = [folder for folder, kinds in FOLDERS.items() if kind not in kinds and choice.has_folder(folder)]
    if others:
        told = ", ".join(f"tests/{other} (for {FOLDERS[other][0]})" for other in others)
        print(f"left out, since {kind} does not run them: {told}")
    if not has_terminals:
        print("left out, since there are no terminals here: conversations at one")
    sys.stdout.flush()


def words_given() -> argparse.Namespace:
    """The words of the command line."""
    about = "Runs the cases of tests/ over the released program, or over another."
    word = "a program; a folder of tests/ or a file of cases; or a word of the names of cases"
    parser = argparse.ArgumentParser(prog="./test", description=about)
    parser.add_argument("--program", metavar="PATH", help="the program that is run")
    parser.add_argument("--jobs", type=int, default=PROCESSORS, help=f"how many cases run in parallel ({PROCESSORS})")
    parser.add_argument("words", nargs="*", metavar="WORD", help=word)
    return parser.parse_args()


def main() -> int:
    """Runs the chosen cases."""
    given = words_given()
    choice = Choice(given.program, given.words)
    must_run(choice.program)
    name = os.path.basename(choice.program)
    kind = name if any(name in kinds for kinds in FOLDERS.values()) else "pascal"
    has_terminals = terminals()
    for folder, kinds in FOLDERS.items():
        if kind in kinds:
            jobs.extend(job for job in jobs_of(folder, choice.program, has_terminals) if choice.has(job))
    introduce(choice.program, kind, choice, has_terminals)
    # (the folders of all cases are in one, so that what an interrupted run leaves there can be removed)
    with tempfile.TemporaryDirectory(prefix="cases-") as room:
        tempfile.tempdir = room
        handle(lambda *_: interrupt(room))
        try:
            return 0 if run_all(Progress(job.folder for job in jobs), max(given.jobs, 1)) else 1
        except BrokenPipeError:
            # nobody reads the output
            interrupt(room)


if __name__ == "__main__":
    try:
        sys.exit(main())
    except (KeyboardInterrupt, BrokenPipeError):
        os._exit(INTERRUPTED)
    except BrokenProcessPool:
        fail("a process that ran cases was ended from outside (for want of memory?)")

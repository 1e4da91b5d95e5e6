"""Shows the progress of a run of cases: one line that is overwritten on a terminal, and lines that stay elsewhere."""

from __future__ import annotations

import os
import shutil
import sys
import time
from collections import Counter
from typing import Iterable, List

SECONDS_BETWEEN = 0.25  # two writings of the line of progress
MOST_FAULTS = 6  # of a case that are told
MOST_CASES = 40  # of which more than the name is told


class Progress:
    """Counts cases by their folders, and reports failures at once and each folder when its last case has ended."""

    def __init__(self, folders: Iterable[str]) -> None:
        self.left = Counter(folders)
        self.total = sum(self.left.values())
        self.passed: Counter = Counter()
        self.failed: Counter = Counter()
        self.is_terminal = sys.stdout.isatty() and os.environ.get("TERM") != "dumb"
        self.written, self.is_shown = 0.0, False

    def say(self, line: str) -> None:
        """A line that stays."""
        if self.is_shown:
            sys.stdout.write("\r\x1b[K")
            self.is_shown = False
        print(line, flush=True)

    def show(self, folder: str) -> None:
        """Writes the line of progress over, unless it was written just now."""
        if not self.is_terminal or time.monotonic() - self.written < SECONDS_BETWEEN:
            return
        ended, failed = self.total - sum(self.left.values()), sum(self.failed.values())
        line = f"{ended} of {self.total}, {failed} failed: tests/{folder}"
        sys.stdout.write(f"\r{line[: shutil.get_terminal_size().columns - 1]}\x1b[K")
        sys.stdout.flush()
        self.written, self.is_shown = time.monotonic(), True

    def tell(self, what: str, wrong: List[str]) -> None:
        """Tells of a case that failed."""
        self.say(what)
        for fault in wrong[:MOST_FAULTS]:
            self.say("    " + fault.replace("\n", "\n    "))
        if len(wrong) > MOST_FAULTS:
            self.say(f"    and {len(wrong) - MOST_FAULTS} more")

    def ended(self, folder: str, place: str, name: str, wrong: List[str]) -> None:
        """Counts a case that has ended, and reports how it differs from what was expected."""
        self.left[folder] -= 1
        (self.failed if wrong else self.passed)[folder] += 1
        if wrong:
            self.tell(f"{place}: {name}", wrong if sum(self.failed.values()) <= MOST_CASES else [])
        if not self.left[folder] and not self.is_terminal:
            self.say(f"tests/{folder}: {self.passed[folder]} passed, {self.failed[folder]} failed")
        self.show(folder)

    def end(self) -> bool:
        """Tells the count, and whether there was a case and none failed."""
        passed, failed = sum(self.passed.values()), sum(self.failed.values())
        self.say(f"{passed} passed, {failed} failed")
        return passed > 0 and failed == 0

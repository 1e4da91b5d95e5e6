"""Cases made from the sessions in README.md and docs/MESSAGES.md, which show what `pascal check` says of a text; and
those of observed.py and certified.py. tests/README.md describes them.
"""

from __future__ import annotations

import os
import re
import subprocess
import tempfile
from typing import Iterator, List, Tuple

import certified
import observed
import runs
from explained import Trial, text_of

PAGES = ("README.md", "docs/MESSAGES.md")
PROGRAM = re.compile(r"(?ms)^```\n(program .*?)^```$")
SESSION = re.compile(r"(?m)^    \$ (?:\./)?pascal check (.*)\n((?:    .*\n|\n(?=    [^$\n]))*)")
SHOWN = re.compile(r"(?m)^ *(\d+) \|(?: (.*))?$")
# the fewest sessions of the second page, and the most lines of a session that may differ from its program
FEWEST, MOST_CHANGED = 10, 1


def with_lines(text: str, shown: str) -> Tuple[str, int]:
    """A text with the source lines that a session shows, and how many of them differ from it."""
    lines = text.split("\n")
    changed = [(int(number) - 1, line) for number, line in SHOWN.findall(shown) if lines[int(number) - 1] != line]
    for at, line in changed:
        lines[at] = line
    return "\n".join(lines), len(changed)


def sessions_of(page: str) -> Iterator[Tuple[int, str, str, str]]:
    """The sessions of a page: the line, the words after `check`, what is shown, and the last program before it."""
    content = text_of(page)
    for session in SESSION.finditer(content):
        programs = PROGRAM.findall(content[: session.start()])
        shown = re.sub(r"(?m)^    ", "", session[2]).strip("\n") + "\n"
        yield content.count("\n", 0, session.start()) + 1, session[1], shown, programs[-1]


def held(words: str, shown: str, text: str, program: str) -> List[str]:
    """Runs a session on a text with the lines that are shown, and returns how its output differs from what the page
    shows."""
    name = words.split()[-1]
    text, changed = with_lines(text, shown)
    if changed > MOST_CHANGED:
        return [f"{changed} lines of the program are shown otherwise"]
    with tempfile.TemporaryDirectory(prefix="session-") as folder:
        with open(f"{folder}/{name}", "w", encoding="utf-8") as file:
            file.write(text)
        how = {"env": runs.environment(), "timeout": runs.SECONDS, "stdin": subprocess.DEVNULL}
        how.update(stdout=subprocess.PIPE, stderr=subprocess.STDOUT)
        ran = subprocess.run([program, "check", *words.split()], cwd=folder, **how)
    return [] if ran.stdout.decode() == shown else [runs.difference("shown", ran.stdout, shown.encode())]


def are_enough() -> List[str]:
    """The page of messages has as many sessions as it should."""
    count = len(list(sessions_of("docs/MESSAGES.md")))
    return [] if count >= FEWEST else [f"{count} sessions, and {FEWEST} are the fewest"]


def trials(program: str) -> Iterator[Trial]:
    """What is tried of the pages over a program."""
    yield Trial("as many sessions as there should be", "docs/MESSAGES.md:1", are_enough)
    for page in PAGES:
        for line, words, shown, text in sessions_of(page):
            run = lambda words=words, shown=shown, text=text: held(words, shown, text, os.path.abspath(program))  # noqa: E731
            yield Trial(f"check {words} of {page}", f"{page}:{line}", run)
    yield from observed.trials(program)
    yield from certified.trials(program)

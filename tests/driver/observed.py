"""Cases made from the sessions in docs/WHY.md, RUNS.md, PLACES.md and NEEDS.md, which show reports on runs and images;
tests/README.md describes them.
"""

from __future__ import annotations

import os
import re
import subprocess
import tempfile
from typing import Iterator, List, Tuple

import runs
from cases import TOP
from explained import Trial, text_of

# the pages, and how many sessions each has at least
PAGES = {"docs/WHY.md": 8, "docs/RUNS.md": 4, "docs/PLACES.md": 2, "docs/NEEDS.md": 3}
# what is between three backticks, or is indented by four spaces
BLOCK = re.compile(r"(?m)^```\n((?:(?!```).*\n)*)```$|^((?:    .*\n|\n(?=    ))+)")
SESSION = re.compile(r"(?m)^\$ pascal (.*)\n((?:(?!\$ ).*\n)*)")
PROGRAM = re.compile(r"(?ms)^program (\w+).*?^end\.$|^program (\w+).*?\bend\.$")
# what is typed in a session, each line after the space that follows a question
TYPED = {"examples/guess.pas": ("50", "42")}
# the lines that are shown of an output that is longer
PART = re.compile(r"(.*) \| sed -n (\d+),(\d+)p")


def blocks_of(content: str) -> Iterator[Tuple[int, str]]:
    """The blocks of a page: the line that each begins on, and its text."""
    for block in BLOCK.finditer(content):
        fenced = block[1] is not None
        text = block[1] if fenced else re.sub(r"(?m)^    ", "", block[2])
        yield content.count("\n", 0, block.start()) + 1 + fenced, text


def programs_of(content: str) -> List[Tuple[str, str]]:
    """The programs of a page, with their names."""
    found = []
    for _, text in blocks_of(content):
        found += [(program[1] or program[2], program[0] + "\n") for program in PROGRAM.finditer(text)]
    return found


def file_of(words: str) -> str:
    """The name of the text among the words of a session."""
    return next(word for word in words.split() if word.endswith(".pas"))


def sessions_of(page: str) -> Iterator[Tuple[int, str, str, str]]:
    """The sessions of a page: the line, the words after `pascal`, what is shown, and the program: the one of the page
    whose name begins like the file's."""
    content = text_of(page)
    programs = programs_of(content)
    for line, text in blocks_of(content):
        for session in SESSION.finditer(text):
            name = file_of(session[1])[: -len(".pas")]
            source = next((program for called, program in programs if called.startswith(name)), "")
            yield line + text.count("\n", 0, session.start()), session[1], session[2].rstrip("\n") + "\n", source


def typed(shown: str, name: str) -> Tuple[str, bytes]:
    """What a session shows without what is typed, and that."""
    lines = TYPED.get(name, ())
    for line in lines:
        shown = shown.replace(f"? {line}\n", "? ", 1)
    return shown, "".join(f"{line}\n" for line in lines).encode()


def held(words: str, shown: str, source: str, program: str) -> List[str]:
    """Runs a session, and returns how its output differs from what the page shows."""
    part = PART.fullmatch(words)
    name = file_of(words)
    shown, given = typed(shown, name)
    with tempfile.TemporaryDirectory(prefix="session-") as folder:
        os.symlink(f"{TOP}/examples", f"{folder}/examples")
        if not name.startswith("examples/"):
            with open(f"{folder}/{name}", "w", encoding="utf-8") as file:
                file.write(source)
        how = {"env": runs.environment(), "timeout": runs.SECONDS, "input": given}
        ran = subprocess.run([program, *(part[1] if part else words).split()], cwd=folder, capture_output=True, **how)
    came = ran.stdout + ran.stderr
    if part:
        came = b"".join(came.splitlines(keepends=True)[int(part[2]) - 1 : int(part[3])])
    return [] if came == shown.encode() else [runs.difference("shown", came, shown.encode())]


def are_enough(page: str) -> List[str]:
    """A page has as many sessions as it should."""
    count = len(list(sessions_of(page)))
    return [] if count >= PAGES[page] else [f"{count} sessions, and {PAGES[page]} are the least"]


def trials(program: str) -> Iterator[Trial]:
    """What is tried of the pages over a program."""
    for page in PAGES:
        yield Trial(f"as many sessions as there should be in {page}", f"{page}:1", lambda page=page: are_enough(page))  # noqa: E731
        for line, words, shown, source in sessions_of(page):
            run = lambda words=words, shown=shown, source=source: held(words, shown, source, os.path.abspath(program))  # noqa: E731
            yield Trial(f"{words} of {page}", f"{page}:{line}", run)

"""Cases made from the session in docs/CERTIFICATES.md: its blocks are run one after another in one folder, which has the
program of the README. tests/README.md describes them.
"""

from __future__ import annotations

import os
import re
import subprocess
import tempfile
from typing import Iterator, List, Tuple

import runs
from explained import Trial, text_of

PAGE = "docs/CERTIFICATES.md"
BLOCK = re.compile(r"(?m)^((?:    .*\n)+)")
PROGRAM = re.compile(r"(?ms)^```\n(program mean.*?)^```$")
# what is done to the files before a block that contains the first
CHANGES = {
    "mean.pas other.img": "cp mean.img other.img && echo >> other.img",
    "mean.pas is not what it was": "sed -i 's/count := 0/count := 10/' mean.pas",
}
# how many blocks there are at least
FEWEST = 4


def blocks_of() -> Iterator[Tuple[int, str, str]]:
    """The blocks of commands: the line, the commands, and what is shown."""
    content = text_of(PAGE)
    for block in BLOCK.finditer(content):
        lines = re.sub(r"(?m)^    ", "", block[1]).splitlines(keepends=True)
        commands = [line[2:] for line in lines if line.startswith("$ ")]
        if commands:
            shown = [line for line in lines if not line.startswith("$ ")]
            yield content.count("\n", 0, block.start()) + 1, "".join(commands), "".join(shown)


def is_shown(came: str, shown: str) -> bool:
    """The output is what the page shows, where two points at the end of a line stand for the rest of it."""
    lines = [re.escape(line) for line in shown.splitlines()]
    pattern = "\n".join(line[: -len(r"\.\.")] + ".*" if line.endswith(r"\.\.") else line for line in lines)
    return re.fullmatch(pattern, came.rstrip("\n")) is not None


def ran(folder: str, script: str) -> str:
    """What a script writes in a folder."""
    how = {"env": runs.environment(), "timeout": runs.SECONDS, "stdin": subprocess.DEVNULL}
    how.update(stdout=subprocess.PIPE, stderr=subprocess.STDOUT, text=True)
    return subprocess.run(["bash", "-c", script], cwd=folder, **how).stdout


def held(program: str) -> List[str]:
    """Runs the blocks, and returns which of them write something else."""
    blocks = list(blocks_of())
    wrong = [] if len(blocks) >= FEWEST else [f"{len(blocks)} blocks, and {FEWEST} are the fewest"]
    with tempfile.TemporaryDirectory(prefix="session-") as folder:
        with open(f"{folder}/mean.pas", "w", encoding="utf-8") as file:
            file.write(PROGRAM.search(text_of("README.md"))[1])
        os.symlink(program, f"{folder}/pascal")
        for line, commands, shown in blocks:
            for words, change in CHANGES.items():
                if words in commands + shown:
                    ran(folder, change)
            came = ran(folder, commands)
            if not is_shown(came, shown):
                wrong.append(f"line {line}: " + runs.difference("shown", came.encode(), shown.encode()))
    return wrong


def trials(program: str) -> Iterator[Trial]:
    """What is tried of the page over a program."""
    yield Trial("the session of a certificate", f"{PAGE}:1", lambda: held(os.path.abspath(program)))

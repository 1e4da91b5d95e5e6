"""What the placers of temporaries make of programs, those of the examples and of the cases.

`pascal_reference places` reports for each placer the words of the code, and whether a copy of the homes is accepted.
"""

from __future__ import annotations

import os
import re
import subprocess
from typing import Iterator, List, Tuple

import runs
from cases import TOP, cases_of, files_of
from explained import Trial

FOLDERS = ("programs", "compiled", "stops", "exact")
# an image has fewer words than so many
MOST = 16384
# has fewer words with registers than with a slot of the frame for each temporary
FEWER = "examples/manorboy.pas"
TOLD = re.compile(r"slots (\d+) (\w+)\nregisters (\d+) (\w+)\n")


def examples() -> Iterator[Tuple[str, bytes]]:
    """The examples by their paths, and their texts."""
    for name in sorted(os.listdir(f"{TOP}/examples")):
        if name.endswith(".pas"):
            with open(f"{TOP}/examples/{name}", "rb") as file:
                yield f"examples/{name}", file.read()


def programs() -> Iterator[Tuple[str, str, bytes]]:
    """The name and the place of each example and of each case whose program is accepted, and its text, each text
    once."""
    seen = set()
    for path, text in examples():
        seen.add(text)
        yield path, path, text
    for case in (case for folder in FOLDERS for path in files_of(folder) for case in cases_of(path)):
        text = case.files.get("program.pas")
        if text and text not in seen and not case.error.startswith(b"refused"):
            seen.add(text)
            yield case.name, case.place, text


def faults_of(program: str, name: str, text: bytes) -> List[str]:
    """What is wrong with the homes of a program."""
    ran = subprocess.run(
        [program, "places"], input=text, env=runs.environment(), capture_output=True, timeout=runs.SECONDS, check=False
    )
    told = TOLD.fullmatch(ran.stdout.decode())
    if not told:
        return [f"status {ran.returncode}, and nothing is told of the homes"]
    slots, registers = int(told[1]), int(told[3])
    wrong = (
        [f"{slots} words with slots, {registers} with registers"]
        if max(slots, registers) >= MOST or name == FEWER and registers >= slots
        else []
    )
    return wrong + [f"a copy of the homes is {word}" for word in (told[2], told[4]) if word != "taken"]


def trials(program: str) -> Iterator[Trial]:
    """Each program as something to be tried."""
    for name, place, text in programs():
        yield Trial(name, place, lambda name=name, text=text: faults_of(program, name, text))

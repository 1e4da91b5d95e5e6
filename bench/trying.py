"""The program of `bench/codes`, which is not proved: `rt try` compiles it with the proved crates on which it depends, in
a copy of the tree in which it is a crate.
"""

from __future__ import annotations

import os
import shutil
import subprocess
from typing import Iterable, List, Optional

HERE = os.path.dirname(os.path.abspath(__file__))
TOP = os.path.dirname(HERE)
NAME = "runs_codes"
# the crates on which it depends
CRATES = "tac_code tac_plan risc_alloc risc_emit risc_image risc_load risc_machine risc_emit_trail"
SECONDS = "120"


def make_room(folder: str) -> str:
    """A copy of the tree that has the program as a crate, whose folder is given."""
    room = f"{folder}/room"
    shutil.copytree(f"{TOP}/crates", f"{room}/crates", ignore=shutil.ignore_patterns("out"))
    for file in ("crates.txt", "HANDLES"):
        shutil.copy(f"{TOP}/{file}", room)
    with open(f"{room}/crates.txt", "a", encoding="utf-8") as file:
        file.write(f"{NAME}: {CRATES}\n")
    crate = f"{room}/crates/{NAME}"
    os.makedirs(f"{crate}/src")
    for file in os.listdir(f"{HERE}/{NAME}"):
        shutil.copy(f"{HERE}/{NAME}/{file}", f"{crate}/src/{file.removesuffix('.txt')}")
    return crate


def tried(folder: str, inputs: List[bytes]) -> List[Optional[bytes]]:
    """What the program writes on each of these inputs; None if it doesn't end."""
    cases = f"{folder}/cases"
    os.makedirs(cases)
    for number, given in enumerate(inputs):
        with open(f"{cases}/{number:06}", "wb") as file:
            file.write(given)
    words = ["rt", "try", "--steps", "1", "--seconds", SECONDS, "--cases", cases]
    ran = subprocess.run(words, cwd=make_room(folder), stdout=subprocess.PIPE)
    found = {}
    for block in (b"\n" + ran.stdout).split(b"\n== ")[1:]:
        head, _, body = block.partition(b"\n")
        found[head.split()[0].decode()] = body + b"\n"
    return [found.get(f"{number:06}") for number in range(len(inputs))]


def answers(folder: str, program: Optional[str], inputs: List[bytes]) -> Iterable[Optional[bytes]]:
    """The same by the compiled program at a path, or by `rt try` if there is no path."""
    if not program:
        return tried(folder, inputs)
    return (subprocess.run([program], input=given, stdout=subprocess.PIPE).stdout for given in inputs)

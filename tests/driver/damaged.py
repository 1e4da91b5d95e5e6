"""Damaged images: one that is cut is refused, and if a bit of its code is flipped, the run is what the processor of
docs/MACHINE.md does.

Some hundreds of each; `bench/damaged` tries all.
"""

from __future__ import annotations

import tempfile
from typing import Iterator, List, Tuple

import processor
import runs
from damaging import HEADER, OWN_WORDS, TEXT
from explained import Trial
from images import Image

PLACE = "tests/driver/damaged.py"
HEAP, STACK, STEPS = 4096, 65536, 1000
LIMITS = ["--heap", str(HEAP), "--stack", str(STACK), "--steps", str(STEPS)]
# each 13th cut, and each 7th bit, so that each bit of a word is met
CUTS, BITS = 13, 7
PARTS = 8


def image_of(program: str, folder: str) -> bytes:
    """The bytes of the image that the program makes of TEXT."""
    with open(f"{folder}/program.pas", "w", encoding="utf-8") as file:
        file.write(TEXT)
    runs.finished([program, "compile", "program.pas", "whole.img"], folder).check_returncode()
    with open(f"{folder}/whole.img", "rb") as file:
        return file.read()


def run_of(program: str, folder: str, data: bytes) -> Tuple[bytes, str]:
    """What a run of these bytes writes, and what is reported of it."""
    with open(f"{folder}/damaged.img", "wb") as file:
        file.write(data)
    ran = runs.finished([program, "run", "damaged.img", *LIMITS], folder)
    return ran.stdout, ran.stderr.decode()


def faults_of_cuts(program: str, part: int) -> List[str]:
    """Which cuts of a part are not refused as they must be."""
    wrong: List[str] = []
    with tempfile.TemporaryDirectory(prefix="damaged-") as folder:
        data = image_of(program, folder)
        for length in range(part * CUTS, len(data), PARTS * CUTS):
            found = run_of(program, folder, data[:length])
            if found != (b"", "refused: 61 Truncated\n"):
                wrong.append(f"cut after {length} bytes: {found}")
    return wrong


def turned(data: bytes, bit: int) -> bytes:
    """The bytes with a bit of the code turned."""
    changed = bytearray(data)
    changed[HEADER + bit // 8] ^= 1 << bit % 8
    return bytes(changed)


def faults_of_bits(program: str, part: int) -> List[str]:
    """For which bits of a part the run differs from that of the plain processor."""
    wrong: List[str] = []
    with tempfile.TemporaryDirectory(prefix="damaged-") as folder:
        data = image_of(program, folder)
        for bit in range(part * BITS, 32 * OWN_WORDS, PARTS * BITS):
            changed = turned(data, bit)
            found, wanted = run_of(program, folder, changed), processor.shown(Image(changed), HEAP, STACK, STEPS)
            if found != wanted:
                wrong.append(f"word {bit // 32}, bit {bit % 32}: {found}, wanted {wanted}")
    return wrong


def trials(program: str) -> Iterator[Trial]:
    """The cuts and the bits, in parts that can be tried in parallel."""
    for part in range(PARTS):
        yield Trial(f"a damaged image: cuts, part {part + 1}", PLACE, lambda part=part: faults_of_cuts(program, part))
        yield Trial(f"a damaged image: bits, part {part + 1}", PLACE, lambda part=part: faults_of_bits(program, part))

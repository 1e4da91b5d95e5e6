"""Images of the compiler, read as docs/MACHINE.md describes them: the sizes in their tables, and the listing of their
code.

Written from that page alone.
"""

from __future__ import annotations

import re
import struct
from typing import Iterator, List, Optional, Tuple

CONTENTS = ("MOV", "LSL", "ASR", "ROR", "AND", "ANN", "IOR", "XOR", "ADD", "SUB", "MUL", "DIV")
WITH_CARRY = {"ADD": "ADC", "SUB": "SBC"}
CONDITIONS = ("MI", "EQ", "CS", "VS", None, "LT", "LE", "T", "PL", "NE", "CC", "VC", None, "GE", "GT", "F")
SUM = re.compile(r"([-+]?) *(?:(\d+) +)?([FG]?\d+|code|globals)")


class Image:
    """The parts of an image that is in order: words, and rows of numbers."""

    def __init__(self, data: bytes) -> None:
        fields = 5 if data[:4] == b"PRI1" else 6
        self.globals, *counts = struct.unpack_from(f"<{fields}I", data, 4)
        self.at, self.data = 4 + 4 * fields, data
        code, frames, objects, traps = counts[:4]
        self.code = [word for word, in self.rows(code, 1)]
        self.frames, self.objects, self.traps = self.rows(frames, 2), self.rows(objects, 2), self.rows(traps, 3)
        # (version 1 has no table of calls)
        self.calls = self.rows(counts[4], 2) if fields == 6 else []

    def rows(self, count: int, width: int) -> List[Tuple[int, ...]]:
        """The rows of a table, each of so many words."""
        rows = list(struct.iter_unpack(f"<{width}I", self.data[self.at : self.at + 4 * count * width]))
        self.at += 4 * count * width
        return rows

    def size(self, name: str) -> int:
        """The bytes that a name in a sum stands for; a number stands for itself."""
        if name == "code":
            return 4 * len(self.code)
        if name == "globals":
            return self.globals
        table = {"F": self.frames, "G": self.objects}.get(name[0])
        return table[int(name[1:])][1] if table else int(name)

    def sum(self, text: str) -> int:
        """A sum as `F0 + 1000 F1 - 4`, in bytes: Fr is the frame of routine r, Gt an object of pointer type t."""
        total = 0
        for sign, times, name in SUM.findall(text):
            total += (-1 if sign == "-" else 1) * int(times or 1) * self.size(name)
        return total

    def listing(self) -> Iterator[str]:
        """The lines of the listing."""
        lines = {link: line for link, _, line in self.traps}
        for at, word in enumerate(self.code):
            line = lines.get(4 * at + 4)
            yield f"{4 * at:06X} {word:08X} {printed(word)}" + (f" ; line {line}" if line else "") + "\n"


def signed(number: int, bits: int) -> int:
    """A number of so many bits, as a signed one."""
    return number - (number >> bits - 1 << bits)


def printed(word: int) -> str:
    """The instruction of a word, or `word` if it is none."""
    forms = (content, content_of_number, memory, branch)
    return forms[word >> 30](word, word >> 29 & 1, word >> 28 & 1) or "word"


def operation(word: int, u: int) -> Optional[str]:
    """The name of an operation, if there is one."""
    name = CONTENTS[word >> 16 & 15] if word >> 16 & 15 < 12 else None
    return WITH_CARRY.get(name) if u and name != "MOV" else name


def content(word: int, u: int, v: int) -> Optional[str]:
    """An operation on registers, or None."""
    a, b, c, name = word >> 24 & 15, word >> 20 & 15, word & 15, operation(word, u)
    if v or word & 0xFFF0 or not name:
        return None
    if name != "MOV":
        return f"{name} R{a}, R{b}, R{c}"
    if b or u and c:
        return None
    return f"MOV R{a}, H" if u else f"MOV R{a}, R{c}"


def content_of_number(word: int, u: int, v: int) -> Optional[str]:
    """An operation on a number, or None."""
    a, b, number, name = word >> 24 & 15, word >> 20 & 15, word & 0xFFFF, operation(word, u)
    if not name:
        return None
    number -= 0x10000 if v else 0
    if name != "MOV":
        return f"{name} R{a}, R{b}, {number}"
    if b or u and v:
        return None
    return f"MOVH R{a}, {number}" if u else f"MOV R{a}, {number}"


def memory(word: int, u: int, v: int) -> str:
    """A load or a store."""
    name = f"{'ST' if u else 'LD'}{'B' if v else ''}"
    return f"{name} R{word >> 24 & 15}, R{word >> 20 & 15}, {signed(word & 0xFFFFF, 20)}"


def branch(word: int, u: int, v: int) -> Optional[str]:
    """A branch, or None."""
    condition = CONDITIONS[word >> 24 & 15]
    if not condition or not u and word & 0xFFFFF0:
        return None
    return f"{'BL' if v else 'B'} {condition}, " + (str(signed(word & 0xFFFFFF, 24)) if u else f"R{word & 15}")

"""The temporaries and blocks of a routine of drawn three-address code: what may be written, and what is known to hold
values.
"""

from __future__ import annotations

from random import Random
from typing import Any, List, Optional, Tuple

NUMBER, BYTE, WORDS, PLACE, CONSTANT, POINTER = "number", "byte", "words", "place", "constant", "pointer"
EDGES = [
    0,
    1,
    -1,
    2,
    -2,
    3,
    7,
    -7,
    10,
    255,
    256,
    -256,
    32767,
    32768,
    -32768,
    -32769,
    65535,
    65536,
    -65535,
    -65536,
    2**31 - 1,
    -(2**31),
    2**31 - 2,
    1 - 2**31,
]
LEAST, MOST = -(2**31), 2**31 - 1
# ranges that include each byte
RANGES = [(0, 255), (0, 300), (-1, 255), (-70000, 70000), (0, 65535), (0, 65536), (LEAST, MOST), (0, MOST)]
# bytes of stack and heap, and steps of the processor
BUDGET = (24_000, 8_000, 60_000)
# the words of a block that hold numbers at its begin and at its end
HEAD = 6
FRAME, SCRATCH, PROGRAM = 0, 1, 2


class Routine:
    """A routine of the program: the kinds of its parameters and its blocks."""

    def __init__(self, number: int, kinds: List[str], frame: int, scratch: int, line: int, leaf: bool) -> None:
        self.number, self.kinds, self.frame, self.scratch, self.line, self.leaf = (
            number,
            kinds,
            frame,
            scratch,
            line,
            leaf,
        )


def number(draw: Random) -> int:
    """A number, mostly a small one."""
    kind = draw.random()
    if kind < 0.5:
        return draw.randint(-9, 40)
    if kind < 0.85:
        return draw.choice(EDGES)
    return draw.randint(LEAST, MOST)


class Temporaries:
    """What the instructions of one routine use: its temporaries and the words of its blocks."""

    def __init__(self, draw: Random, code: Any, routine: Routine) -> None:
        self.draw, self.code, self.routine = draw, code, routine
        self.kinds = list(routine.kinds)
        self.known = set(range(len(self.kinds)))
        self.out = []
        self.kept = set()
        self.line = routine.line

    # ---- temporaries

    def temporary(self, kind: str) -> Optional[int]:
        """One to write: a new one, or one of the kind that nothing counts on."""
        old = [t for t, k in enumerate(self.kinds) if k == kind and t not in self.kept]
        if old and (len(self.kinds) >= self.code.most(self.routine) or self.draw.random() < 0.5):
            return self.draw.choice(old)
        if len(self.kinds) >= self.code.most(self.routine):
            return None
        self.kinds.append(kind)
        return len(self.kinds) - 1

    def of(self, *kinds: Any) -> Optional[int]:
        """A temporary of one of these kinds that holds a value; None if there is none."""
        old = [t for t in self.known if self.kinds[t] in kinds]
        return self.draw.choice(sorted(old)) if old else None

    def number(self) -> int:
        """A temporary that holds a number, or None."""
        return self.of(NUMBER, BYTE)

    def operand(self) -> List[int]:
        """A right operand, in its printed form as numbers: a temporary or a number."""
        t = self.number()
        return [0, t] if t is not None and self.draw.random() < 0.6 else [1, number(self.draw)]

    def at(self) -> int:
        """The line of the next instruction, at most 65,535."""
        self.line = min(65535, self.line + self.draw.randint(0, 2))
        return self.line

    def add(self, *fields: Any) -> None:
        """Appends an instruction."""
        self.out.append(list(fields))

    def wrote(self, t: int) -> None:
        """Notes that a temporary holds a value."""
        self.known.add(t)

    # ---- blocks: a base, and the offset of words that hold numbers

    def block(self) -> Optional[Tuple[List[int], int, int]]:
        """A base, an offset and how many words that hold numbers are there; None if there are none."""
        draw, routine = self.draw, self.routine
        choices = []
        for base, size in ((FRAME, routine.frame), (SCRATCH, routine.scratch), (PROGRAM, self.code.program_frame)):
            words = size // 4
            if words:
                choices.append(([base], 0, min(words, HEAD)))
                if words > 2 * HEAD:
                    choices.append(([base], 4 * (words - HEAD), HEAD))
        t = self.of(WORDS)
        if t is not None:
            choices += [([3, t], 0, 2)] * 2
        return draw.choice(choices) if choices else None

    def filled(self, base: List[int], size: int) -> None:
        """Numbers in the words that are to hold some."""
        words = size // 4
        places = set(range(min(words, HEAD)))
        if words > 2 * HEAD:
            places |= set(range(words - HEAD, words))
        if not places:
            return
        t = self.numbered()
        for place in sorted(places):
            self.add(12, *base, 4 * place, t)

    def numbered(self) -> int:
        """A temporary that holds a number: a new one, if there is room."""
        t = self.temporary(NUMBER)
        if t is None:
            return self.number()
        self.add(0, t, number(self.draw))
        self.wrote(t)
        return t

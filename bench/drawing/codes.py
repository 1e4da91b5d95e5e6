"""Drawn three-address code, whose runs are never stuck.

Each temporary of a routine holds values of one kind throughout, and is read only where it was certainly written:
numbers, bytes (0 to 255), addresses at which some words hold numbers, addresses of bytes, of constants, pointers (nil
or an object), and a routine's number. The first words of each block, and some at its end, get numbers at the beginning
of the routine, and other words none. Recursion ends by a count that each routine of the program has as its first
parameter; each loop counts its turns down.
"""

from __future__ import annotations

from random import Random
from typing import List, Optional, Tuple

from .code_temporaries import (
    BUDGET,
    BYTE,
    CONSTANT,
    FRAME,
    LEAST,
    MOST,
    NUMBER,
    PLACE,
    POINTER,
    RANGES,
    SCRATCH,
    WORDS,
    Routine,
    Temporaries,
    number,
)


class Body(Temporaries):
    """Draws the instructions of one routine."""

    # ---- instructions

    def literal(self) -> None:
        kind = self.draw.choice([NUMBER, NUMBER, BYTE, POINTER])
        t = self.temporary(kind)
        if t is not None:
            self.add(0, t, {NUMBER: number(self.draw), BYTE: self.draw.randint(0, 255), POINTER: 0}[kind])
            self.wrote(t)

    def copy(self) -> None:
        if self.known:
            a = self.draw.choice(sorted(self.known))
            t = self.temporary(self.kinds[a])
            if t is not None:
                self.add(1, t, a)
                self.wrote(t)

    def arithmetic(self) -> None:
        a, t = self.number(), self.temporary(NUMBER)
        if a is not None and t is not None:
            operator = self.draw.choice([0, 1, 2, 3, 3, 4, 4])
            right = self.operand()
            if right[0] == 1 and operator == 4 and right[1] < 1 and self.draw.random() < 0.8:
                right[1] = self.draw.randint(1, 90000)
            # a small left operand keeps most runs from an early end
            if self.draw.random() < 0.7:
                small = self.small(a)
                a = a if small is None else small
            self.add(2, operator, t, a, *right, self.draw.choice([1, 1, 4]), self.at())
            self.wrote(t)

    def small(self, a: int) -> Optional[int]:
        """A byte that is made of a number, or None."""
        t = self.temporary(BYTE)
        if t is not None:
            self.add(3, 0, t, a, 1, self.draw.choice([3, 7, 15, 255]))
            self.wrote(t)
        return t

    def bits(self) -> None:
        """An operation on bits."""
        a, t = self.number(), self.temporary(NUMBER)
        if a is not None and t is not None:
            self.add(3, self.draw.randint(0, 4), t, a, *self.operand())
            self.wrote(t)

    def relation(self) -> Tuple[List[int], List[int]]:
        """A relation with its operands: of numbers or of pointers."""
        p = self.of(POINTER)
        if p is not None and self.draw.random() < 0.3:
            right = [0, self.of(POINTER)] if self.draw.random() < 0.6 else [1, 0]
            return [self.draw.randint(0, 1)], [p, *right]
        a = self.number()
        return ([self.draw.randint(0, 5)], [a, *self.operand()]) if a is not None else None

    def compare(self) -> None:
        test, t = self.relation(), self.temporary(BYTE)
        if test and t is not None:
            self.add(4, *test[0], t, *test[1])
            self.wrote(t)

    def check_range(self) -> None:
        a = self.number()
        if a is None:
            return
        kind = self.draw.random()
        if kind < 0.5:
            b = self.small(a)
            if b is not None:
                self.add(5, b, *self.draw.choice(RANGES), 4, self.at())
        elif kind < 0.6:
            low, high = number(self.draw), number(self.draw)
            self.add(5, a, low, high, 4, self.at())
        else:
            self.add(5, a, LEAST, MOST, 4, self.at())

    def pointer(self) -> None:
        """A use of an object through a pointer that was tested."""
        p, t, n = self.of(POINTER), self.temporary(NUMBER), self.number()
        if p is None or t is None or n is None:
            return
        self.add(6, p, self.draw.choice([5, 6]), self.at())
        if self.draw.random() < 0.5:
            self.add(12, 3, p, 4 * self.draw.randint(0, 1), n)
        self.add(11, t, 3, p, 4 * self.draw.randint(0, 1))
        self.wrote(t)

    def text(self) -> None:
        """A constant."""
        t = self.temporary(CONSTANT)
        if t is not None:
            count = 4 * self.draw.randint(2, 5)
            self.add(7, t, count, *[self.draw.choice([0, 65, 127, 128, 255]) for _ in range(count)])
            self.wrote(t)

    def read_text(self) -> None:
        """A load of a word or a byte from a constant."""
        c = self.of(CONSTANT)
        if c is None:
            return
        if self.draw.random() < 0.5:
            t = self.temporary(NUMBER)
            if t is not None:
                self.add(11, t, 3, c, 4 * self.draw.randint(0, 1))
                self.wrote(t)
        else:
            t = self.temporary(BYTE)
            if t is not None:
                self.add(13, t, 3, c, self.draw.randint(0, 7))
                self.wrote(t)

    def offset(self) -> None:
        block, t = self.block(), self.temporary(WORDS)
        if block and t is not None and block[2] >= 2:
            base, start, words = block
            place = self.draw.randint(0, words - 2)
            self.add(8, t, *base, start + 4 * place, 8)
            self.wrote(t)

    def index(self) -> None:
        block, a = self.block(), self.number()
        if not block or a is None or block[1]:
            return
        base, start, words = block
        small = self.temporary(BYTE)
        if small is None:
            return
        if self.draw.random() < 0.3:
            t, steps = self.temporary(PLACE), self.draw.choice([1, 3])
            width = self.draw.choice([1, 1, 2]) if words >= 2 else 1
            if (steps * width) >= 4 * words:
                return
        else:
            t, steps, width = self.temporary(WORDS), self.draw.choice([0, 1, 3]), 4
            if steps + 2 > words:
                return
            if steps == 0:
                width = self.draw.choice([0, 4, 65536, 12])
        if t is None:
            return
        low = self.draw.choice([0, 0, 1, -1, -5, 70000, -70000, LEAST, MOST - 3])
        index = self.temporary(NUMBER)
        if index is None:
            return
        self.add(3, 0, small, a, 1, steps)
        self.add(3, 4, index, small, 1, low)
        self.known |= {small, index}
        if self.draw.random() < 0.05:
            self.add(3, 4, index, index, 1, self.draw.choice([-1, steps + 1, 100000]))
        self.add(9, t, *base, index, low, low + steps, width, 4, self.at())
        self.wrote(t)

    def load(self) -> None:
        block, t = self.block(), self.temporary(NUMBER)
        if block and t is not None:
            base, start, words = block
            self.add(11, t, *base, start + 4 * self.draw.randint(0, words - 1))
            self.wrote(t)

    def store(self) -> None:
        block, a = self.block(), self.number()
        if block and a is not None:
            base, start, words = block
            self.add(12, *base, start + 4 * self.draw.randint(0, words - 1), a)

    def load_byte(self) -> None:
        t = self.temporary(BYTE)
        place = self.of(PLACE)
        if t is None:
            return
        if place is not None and self.draw.random() < 0.5:
            self.add(13, t, 3, place, 0)
        else:
            block = self.block()
            if not block:
                return
            base, start, words = block
            self.add(13, t, *base, start + self.draw.randint(0, 4 * words - 1))
        self.wrote(t)

    def store_byte(self) -> None:
        b = self.of(BYTE)
        if b is None:
            return
        place = self.of(PLACE)
        if place is not None and self.draw.random() < 0.5:
            self.add(14, 3, place, 0, b)
        else:
            block = self.block()
            if block:
                base, start, words = block
                self.add(14, *base, start + self.draw.randint(0, 4 * words - 1), b)

    def put(self) -> None:
        b = self.of(BYTE)
        if b is None:
            a = self.number()
            b = self.small(a) if a is not None else None
        if b is not None:
            self.add(24, b)

    def take(self) -> None:
        t = self.temporary(NUMBER)
        if t is not None:
            self.add(23, t)
            self.wrote(t)

    def new(self) -> None:
        types = [k for k, size in enumerate(self.code.objects) if size >= 8] or [0]
        object_type = (
            self.draw.choice(types) if self.draw.random() < 0.8 else self.draw.randrange(len(self.code.objects))
        )
        if self.code.objects[object_type] >= 8:
            t = self.temporary(POINTER)
            if t is None:
                return
            self.add(25, t, object_type, self.at())
            self.wrote(t)
            self.filled([3, t], self.code.objects[object_type])
        else:
            # an object of less than two words is a pointer that is compared alone
            t = self.temporary("tiny")
            if t is None:
                return
            self.add(25, t, object_type, self.at())
            self.wrote(t)
            other, b = self.of("tiny"), self.temporary(BYTE)
            if b is not None:
                self.add(4, self.draw.randint(0, 1), b, t, 0, other)
                self.wrote(b)

    def turns(self) -> int:
        """A temporary with the count of calls that a callee may still make."""
        t = self.temporary(NUMBER)
        if t is None:
            return None
        if self.routine.number == 0:
            self.add(0, t, self.draw.randint(0, 4) if self.draw.random() < 0.9 else 60)
        else:
            self.add(3, 4, t, 0, 1, -1)
        self.wrote(t)
        return t

    def actual(self, kind: str) -> Optional[int]:
        """A temporary to be passed for a parameter of this kind."""
        if kind != NUMBER:
            return self.of(kind)
        t = self.number()
        return self.numbered() if t is None else t

    def operands(self, callee: Routine) -> Optional[List[int]]:
        """What is passed to a routine; None if nothing can be passed for a parameter. The count of calls stays as it is
        up to the call."""
        operands = []
        if not callee.leaf:
            operands.append(self.turns())
            self.kept.add(operands[0])
        operands += [self.actual(kind) for kind in callee.kinds[len(operands) :]]
        return None if None in operands else operands

    def call(self) -> None:
        """A call with fewer calls left: of a routine of the program by its number or its value, or of a run-time
        routine."""
        if self.routine.leaf or len(self.code.routines) == 1:
            return
        callee = self.draw.choice(self.code.routines[1:])
        kept = set(self.kept)
        operands = self.operands(callee)
        if operands is not None:
            self.make_call(callee, operands)
        self.kept = kept

    def make_call(self, callee: Routine, operands: List[int]) -> None:
        """A call of a routine with these operands, directly or by its value."""
        to = self.temporary(NUMBER)
        if to is None:
            return
        if callee.leaf or self.draw.random() < 0.6:
            self.add(19, to, callee.number, len(operands), *operands, self.at())
        else:
            value = self.temporary("routine")
            if value is None:
                return
            self.add(10, value, callee.number)
            self.wrote(value)
            self.add(20, to, value, len(operands), *operands, self.at())
        self.wrote(to)

    def branch(self, depth: int) -> None:
        """A branch around some instructions, forward."""
        test = self.relation()
        if not test:
            return
        at = len(self.out)
        self.add()
        before = set(self.known)
        self.sequence(depth - 1, self.draw.randint(1, 3))
        then = self.known
        if self.draw.random() < 0.5:
            self.known = set(before)
            jump = len(self.out)
            self.add()
            self.out[at] = [17, *test[0], *test[1], len(self.out) - at - 1]
            self.sequence(depth - 1, self.draw.randint(1, 3))
            self.out[jump] = [15, len(self.out) - jump - 1]
            self.known &= then
        else:
            self.out[at] = [17, *test[0], *test[1], len(self.out) - at - 1]
            self.known = before & then

    def loop(self, depth: int) -> None:
        """A loop that counts its turns down."""
        count = self.temporary(NUMBER)
        if count is None or count in self.kept:
            return
        self.kept.add(count)
        self.add(0, count, self.draw.randint(0, 3))
        self.wrote(count)
        before = set(self.known)
        if self.draw.random() < 0.5:
            # the test at the bottom, which is met first
            jump = len(self.out)
            self.add()
            start = len(self.out)
            self.sequence(depth - 1, self.draw.randint(1, 3))
            self.add(3, 4, count, count, 1, -1)
            self.out[jump] = [15, len(self.out) - jump - 1]
            self.add(18, 4, count, 1, 0, len(self.out) - start)
        else:
            start = len(self.out)
            self.add()
            self.sequence(depth - 1, self.draw.randint(1, 3))
            self.add(3, 4, count, count, 1, -1)
            self.add(16, len(self.out) - start)
            self.out[start] = [17, 3, count, 1, 0, len(self.out) - start - 1]
        self.known = before
        self.kept.discard(count)

    PLAIN = (
        "literal literal copy arithmetic arithmetic arithmetic bits bits compare check_range pointer text read_text "
        "offset index index load load store store "
        "load_byte store_byte put put put take new call call call"
    ).split()

    def sequence(self, depth: int, count: int) -> None:
        """So many instructions, branches or loops, in a row."""
        for _ in range(count):
            kind = self.draw.random()
            if depth and kind < 0.12:
                self.branch(depth)
            elif depth and kind < 0.2:
                self.loop(depth)
            else:
                getattr(self, self.draw.choice(self.PLAIN))()

    def whole(self) -> List[List[int]]:
        """The whole body of the routine."""
        draw, routine = self.draw, self.routine
        if not routine.leaf and routine.number:
            # the count of what may still be called
            self.kept.add(0)
            t = self.temporary(NUMBER)
            self.add(17, 4, 0, 1, 0, 2)
            self.add(0, t, number(draw))
            self.add(21, t)
        self.numbered()
        self.filled([FRAME], routine.frame)
        self.filled([SCRATCH], routine.scratch)
        self.sequence(2, draw.randint(3, 12 if not routine.leaf else 6))
        if draw.random() < 0.04:
            self.add(22, draw.choice([3, 5, 7, 11, 12, 13]), self.at())
        elif routine.number == 0 or (not routine.leaf and draw.random() < 0.02):
            self.add(26)
        else:
            self.add(21, self.number())
        return self.out


class Code:
    """A whole program of three-address code."""

    def __init__(self, draw: Random) -> None:
        self.draw = draw
        self.few = draw.random() < 0.5
        self.objects = [draw.choice([0, 4, 8, 8, 12, 64, 4000]) for _ in range(draw.randint(1, 3))]
        if draw.random() < 0.02:
            self.objects.append(2147483644)
        size = draw.random()
        self.far = size < 0.02
        self.routines = []
        for k in range(draw.randint(1, 4)):
            self.routines.append(
                Routine(
                    k,
                    [] if k == 0 else self.parameters(draw.randint(0, 3)),
                    self.block(),
                    self.block(),
                    draw.randint(1, 60000),
                    False,
                )
            )
        if draw.random() < 0.05 and len(self.routines) > 1:
            self.routines[1].kinds = [NUMBER] * 65
        if draw.random() < 0.02:
            self.routines[-1].frame = draw.choice([20_000_000, 2_000_000_000])
        self.program = len(self.routines)
        for k in range(draw.randint(0, 2)):
            kinds = [draw.choice([NUMBER, NUMBER, WORDS, CONSTANT]) for _ in range(draw.randint(0, 8))]
            self.routines.append(
                Routine(
                    self.program + k,
                    kinds,
                    4 * draw.randint(0, 3),
                    4 * draw.randint(0, 3),
                    draw.randint(1, 60000),
                    True,
                )
            )
        self.program_frame = self.routines[0].frame

    def parameters(self, more: int) -> List[str]:
        """The kinds of a routine's parameters, of which the first counts calls."""
        return [NUMBER] + [self.draw.choice([NUMBER, WORDS, POINTER, BYTE, CONSTANT, PLACE]) for _ in range(more)]

    def block(self) -> int:
        """The bytes of a block; in some programs beyond the reach of one word."""
        if self.far and self.draw.random() < 0.5:
            return self.draw.choice([524288 - 276, 524284, 524288, 600000, 1048576, 2000000])
        return 4 * self.draw.choice([0, 1, 2, 3, 4, 8, 16, 40])

    def most(self, routine: Routine) -> int:
        """How many temporaries a routine has at most: few make registers pass from one to another, many need slots."""
        if routine.leaf:
            return 30
        return len(routine.kinds) + (9 if self.few else 60)


def drawn(draw: Random) -> List[int]:
    """A code with its budgets, steps and input, as numbers."""
    code = Code(draw)
    texts = []
    for routine in code.routines:
        body = Body(draw, code, routine)
        instructions = body.whole()
        temporaries = len(body.kinds)
        if draw.random() < 0.01 and not routine.leaf:
            temporaries += draw.choice([1000, 140000])
        flat = [field for instruction in instructions for field in instruction]
        texts.append(
            [len(routine.kinds), temporaries, routine.frame, routine.scratch, routine.line, len(instructions), *flat]
        )
    large = code.far or draw.random() < 0.005
    stack, heap, steps = BUDGET
    stack = draw.choice([8_000_000 if large else stack] * 6 + [1000, 1400, 2000, 4000, 276, 4])
    heap = draw.choice([heap] * 6 + [0, 8, 16, 24, 64])
    text = [draw.choice([10, 32, 48, 65, 255, 0]) for _ in range(draw.randint(0, 5))]
    numbers = [stack, heap, steps, len(text), *text, code.program]
    for text in texts[: code.program]:
        numbers += text
    numbers.append(len(texts) - code.program)
    for text in texts[code.program :]:
        numbers += text
    numbers += [len(code.objects), *code.objects]
    return numbers

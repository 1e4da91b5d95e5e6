"""The blocks of a text with faults, and how parts are added to them so that everything else obeys the rules.

A part of a text is written as a string with `@` before the token that breaks the rule. If that is reported later than
it occurs, `!` is before the token at which it is reported. Each way to break a rule takes the drawing and a block, and
adds its parts to that block. Names that a fault adds are new ones.
"""

from __future__ import annotations

import re
from random import Random
from typing import Any, Dict, List, Optional

MARKS = "@!#?$%&|~`"  # two for each fault: those of the last one, and those of the ones before it
TOKEN = re.compile(rf"[{MARKS}]*(?:[A-Za-z][A-Za-z0-9]*|\d+|'(?:[^'\n]|'')*'|:=|\.\.|<>|<=|>=|[-+*=<>()\[\],;:.^])")
DEEPEST = 3

# what each program defines for all of its blocks
CONSTANTS = ["three = 3", "cross = 'x'", "word = 'abcd'"]
TYPES = [
    "colour = (red, green, blue)",
    "small = 1..9",
    "node = record one: integer; two: char; next: ^ node end",
    "row = array [1..5] of integer",
    "line = packed array [1..4] of char",
    "some = set of small",
    "link = ^ node",
    "tight = packed record left: char; right: Boolean end",
]  # fmt: skip
VARIABLES = [
    "gi, gj: integer",
    "gc: char",
    "gb: Boolean",
    "ge: colour",
    "gr: node",
    "ga: row",
    "gl: line",
    "gs: some",
    "gp: link",
    "gt: tight",
]
ROUTINES = [
    "procedure pv(n: integer); begin gi := n end", "procedure pr(var n: integer); begin n := 1 end",
    "procedure pc(var c: char); begin c := 'a' end", "procedure pt(n: integer; c: char); begin gi := n; gc := c end",
    "function fn(n: integer): integer; begin fn := n + 1 end", "procedure hp(procedure q(n: integer)); begin q(3) end",
    "procedure hf(function f(n: integer): integer); begin gi := f(4) end",
]  # fmt: skip


class Block:
    """The parts of a block. `head` is what comes before it, without the semicolon. The marks are those of faults that
    are reported when its type part ends, when its routine part ends, and when the first `for` on its control variable
    is met."""

    def __init__(self, head: str, depth: int, control: str) -> None:
        self.head, self.depth, self.control = head, depth, control
        self.constants, self.types, self.variables, self.routines, self.statements = (
            [],
            [],
            [f"{control}: integer"],
            [],
            [],
        )
        self.types_end, self.routines_end, self.loop = "", "", ""

    def lists(self) -> Any:
        """The parts of the block, as lists of texts."""
        return self.constants, self.types, self.variables, self.routines, self.statements

    def written(self) -> str:
        """The text of the block."""
        written = (("const", self.constants, ""), ("type", self.types, self.types_end), ("var", self.variables, ""))
        parts = [f"{word} {'; '.join(items)} {marks};" for word, items, marks in written if items]
        routines = [
            f"{routine.head}; {routine.written()};" if isinstance(routine, Block) else f"{routine};"
            for routine in self.routines
        ]
        statements = re.sub(rf"(?<=for )(?=[{MARKS}]*{self.control} )", self.loop, "; ".join(self.statements), count=1)
        return " ".join([*parts, *routines, f"{self.routines_end}begin {statements} end"])

    def rename_marks(self) -> None:
        """The marks of each fault become those of one that has another after it."""
        for items in self.lists():
            items[:] = [renamed(item) if isinstance(item, str) else item for item in items]
        self.types_end, self.routines_end, self.loop = (
            renamed(marks) for marks in (self.types_end, self.routines_end, self.loop)
        )


def renamed(text: str) -> str:
    """A text with the marks of a fault that comes after another."""
    return text.translate(str.maketrans(MARKS[:-2], MARKS[2:]))


class Drawing:
    """A text that is being drawn: its blocks, and what it reads and writes."""

    def __init__(self, draw: Random) -> None:
        self.draw, self.count, self.reads, self.writes, self.blocks = draw, 0, True, True, []
        self.parameters = "input, output"
        self.program = self.block("program", 0)
        self.program.constants[:0] = CONSTANTS
        self.program.types[:0] = TYPES
        self.program.variables[:0] = VARIABLES
        self.program.routines[:0] = ROUTINES

    def fresh(self, letter: str = "x") -> str:
        """A new name."""
        self.count += 1
        return f"{letter}{self.count}"

    def choice(self, *ways: Any) -> str:
        """One of several texts."""
        return self.draw.choice(ways)

    # ---- what keeps the rules

    def block(self, head: str, depth: int) -> Block:
        """A block with routines in it."""
        block = Block(head, depth, self.fresh("k"))
        self.blocks.append(block)
        for _ in range(self.draw.choice((0, 1, 1, 2)) if depth < DEEPEST else 0):
            block.routines.append(self.routine(depth + 1))
        for _ in range(self.draw.randint(0, 2)):
            self.draw.choice((block.constants, block.variables, block.types)).append(None)
        block.constants[:] = [
            f"{self.fresh('c')} = {self.draw.randint(0, 99)}" if item is None else item for item in block.constants
        ]
        block.types[:] = [f"{self.fresh('t')} = {self.denoter()}" if item is None else item for item in block.types]
        block.variables[:] = [
            f"{self.fresh('v')}: {self.choice('integer', 'char', 'small')}" if item is None else item
            for item in block.variables
        ]
        return block

    def denoter(self) -> str:
        """A type denoter."""
        a, b, c = self.fresh(), self.fresh(), self.fresh()
        return self.choice(
            "integer",
            f"({a}, {b}, {c})",
            "1..20",
            f"record {a}, {b}: integer; {c}: char end",
            "array [1..3] of char",
            "set of small",
        )

    def routine(self, depth: int) -> Block:
        """A routine, with its block."""
        name, a, b = self.fresh("p"), self.fresh("a"), self.fresh("b")
        formals = self.choice("", f"({a}: integer)", f"({a}, {b}: integer)", f"(var {a}: char; {b}: small)")
        if self.draw.random() < 0.3:
            block = self.block(f"function {name}{formals}: integer", depth)
            block.statements.append(f"{name} := {self.number()}")
            return block
        return self.block(f"procedure {name}{formals}", depth)

    def number(self) -> str:
        """An integer expression."""
        return self.choice(
            "1", "gi", "three", "gi + gj", "gr.one", "ga[2]", "(gi - 2) * gj", "fn(gi)", "abs(gj)", "ord(gc)"
        )

    def condition(self) -> str:
        """A Boolean expression."""
        return self.choice("gb", "gi < 3", "not gb", "gb and (gi = gj)", "gc = 'a'", "gi in gs", "ge <> red")

    def statement(self) -> str:
        """A statement."""
        ways = [
            "gi := {n}",
            "gj := {n} + {n}",
            "gb := {b}",
            "gc := cross",
            "if {b} then gi := {n} else gj := {n}",
            "pv({n})",
            "pr(gi)",
            "pc(gc)",
        ]
        ways += [
            "case gi of 1: gj := 1; 2, three: end",
            "with gr do one := {n}",
            "hp(pv)",
            "hf(fn)",
            "begin gi := {n}; gj := 1 end",
            "new(gp)",
        ]
        ways += ["writeln(gi, 'abc')", "write({n}: 3)"] * self.writes + ["read(gi)", "readln"] * self.reads
        return self.draw.choice(ways).replace("{n}", self.number()).replace("{b}", self.condition())

    def around(self, statement: str, control: Optional[str] = None) -> str:
        """A statement that holds this one."""
        for _ in range(self.draw.randint(0, 2)):
            ways = [
                "if {b} then {s}",
                "if {b} then gi := 1 else {s}",
                "while {b} do {s}",
                "repeat {t}; {s} until {b}",
                "begin {t}; {s} end",
            ]
            ways += ["case gi of 4: gj := 1; 5: {s} end", "with gr do {s}", "begin {s}; {t} end"]
            ways += [f"for {control} := 1 to 3 do {{s}}"] if control else []
            way = self.draw.choice(ways).replace("{b}", self.condition()).replace("{t}", self.statement())
            statement = way.replace("{s}", statement)
            control = None
        return statement

    def finish(self) -> str:
        """Fills all blocks, and returns the text."""
        for block in self.blocks:
            for _ in range(self.draw.randint(1, 3)):
                statement = self.around(self.statement(), block.control)
                block.statements.insert(self.draw.randint(0, len(block.statements)), statement)
        return (
            f"program p({self.parameters}); {self.program.written()}."
            if self.parameters
            else f"program p; {self.program.written()}."
        )

    # ---- where a fault is put

    def add(self, block: Block, statement: str) -> None:
        """Adds a statement to a block, at some place."""
        block.statements.insert(self.draw.randint(0, len(block.statements)), self.around(statement))

    def declare(self, items: List[Any], *new: Any) -> None:
        """New items of a part, in their order, among the others."""
        places = sorted(self.draw.randint(0, len(items)) for _ in new)
        for moved, (place, item) in enumerate(zip(places, new)):
            items.insert(place + moved, item)

    def declare_behind(self, items: List[Any], *new: Any) -> None:
        """The same, after what each program defines."""
        first = max(
            (index + 1 for index, item in enumerate(items) if item in VARIABLES + TYPES + CONSTANTS + ROUTINES),
            default=0,
        )
        held = items[first:]
        self.declare(held, *new)
        items[first:] = held

    def use(self, block: Block, expression: str) -> None:
        """An expression of integer type, at a place where one may come."""
        way = self.choice(
            "gi := {e}",
            "gj := 2 + {e}",
            "pv({e})",
            "ga[{e}] := 1",
            "if {e} > 0 then gi := 1",
            "gi := fn(1 + 2 * ({e}))",
            "gi := fn({e})",
        )
        self.add(block, way.replace("{e}", expression))


# ---- the ways to break each rule

WAYS: Dict[int, List[Any]] = {}


def way(number: Any) -> Any:
    """Notes a way to break the rule of this number."""
    def kept(function: Any) -> Any:
        WAYS.setdefault(number, []).append(function)
        return function

    return kept

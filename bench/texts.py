#!/usr/bin/env python3
"""Writes Pascal texts of 1,048,576 bytes, the maximum, into a folder, one for each way in which a text can be long or
deep.

TEXTS are those that are written. SHAPES are texts of any length, each with as much of one thing as there is room for:
bench/phases --growth measures how the time of the lowering grows with them.
"""

from __future__ import annotations

import os
import sys
from typing import Any, Callable, List

LENGTH = 1_048_576
HEAD = "program bench(output);\nvar a, b, c, x: integer; y: Boolean;\n"
# the number of lines is limited, so short statements share lines
SIDE_BY_SIDE = 16
# a type and a block have 100,000 cells at most, of which the variables of HEAD are five
MOST_NAMES = 99_990


def parts_of(make: Callable[[int], str], room: int) -> List[str]:
    """Parts, each numbered, as many as there is room for."""
    parts = []
    while make and len(make(len(parts))) + 2 <= room:
        parts.append(make(len(parts)))
        room -= len(parts[-1]) + 2
    return parts


def room_in(length: int) -> int:
    """The bytes for declarations and statements."""
    return length - len(HEAD) - len("begin\nx := 1\nend.\n")


def whole(length: int, declared: str, statements: Any) -> str:
    """The program of some declarations and statements; spaces at its end make it as long as required."""
    text = HEAD + declared + "begin\n" + ";\n".join(statements or ["x := 1"]) + "\nend."
    return text + " " * (length - len(text) - 1) + "\n"


def program(declarations: Callable[[int], str], statements: Any, length: int = LENGTH) -> str:
    """A program of parts that are repeated."""
    room = room_in(length)
    return whole(length, "".join(parts_of(declarations, room)), parts_of(statements, room))


def routine(k: int) -> str:
    """A function with a loop."""
    return (
        f"function f{k}(n: integer; var r: integer): integer;\nvar i, s: integer;\nbegin\n  s := 0;\n"
        f"  for i := 1 to n do\n    if odd(i) then s := s + i * {k} else s := s - i div 2;\n  r := s;\n  f{k} := s "
        "mod 1000\nend;\n"
    )


def expression(k: int) -> str:
    """A procedure with a long expression."""
    terms = [f"a * {k % 97 + 1} + b div 3 - (c mod 7) * x" for _ in range(6)]
    return f"procedure e{k};\nbegin\n  x := " + "\n    + ".join(terms) + "\nend;\n"


def nest(k: int) -> str:
    """With the block and the statement, the greatest height that there is: 500."""
    depth = 497
    return "x := " + "(" * depth + f"a + {k}" + ")" * depth


def operands(k: int) -> str:
    """Each right operand is a sum in parentheses, as deep."""
    depth = 497
    return "x := " + "a + (" * depth + f"b + {k}" + ")" * depth


def blocks(k: int) -> str:
    """Two statements each, so that with the block, the assignment and its value the height is 499."""
    depth = 248
    return "if y then begin " * depth + f"x := {k} " + "end " * depth


def remarks(k: int) -> str:
    """A long comment, and a statement with a long string."""
    return (
        "{ "
        + "a remark that is as long as remarks are, and then goes on; " * 20
        + f"}}\nwriteln('{'a string ' * 20}', {k})"
    )


def assignments(k: int) -> str:
    """A line of assignments."""
    return "; ".join(["x := 1"] * SIDE_BY_SIDE)


def small(k: int) -> str:
    """Three small routines, which call those before them."""
    before = max(k - 1, 0)
    return (
        f"procedure p{k}(var r: integer; n: integer);\nbegin\n  r := n + {k}\nend;\n"
        f"function g{k}(m, n: integer): integer;\nbegin\n  if m < n then g{k} := g{before}(n, m) else g{k} := m - n\n"
        "end;\n"
        f"procedure c{k};\nbegin\n  p{before}(x, g{before}(a, b)); p{k}(b, {k % 1000}); x := g{k}(x, g{before}(a, "
        "c))\nend;\n"
    )


def structured(k: int) -> str:
    """A routine over records, an array of them, and sets."""
    return (
        f"procedure r{k}(var p: line; n: integer);\nvar q: point; s, t: digits;\nbegin\n  q.x := n; q.y := {k % 97}; "
        "p.start := q;\n"
        f"  with p.stop do begin x := q.y + 1; y := q.x - p.start.y end;\n  s := [{k % 10}, n mod 32..17]; t := s + "
        "[n mod 7] - [3..5];\n"
        f"  if {k % 32} in s * t then path[{k % 10}] := p\n  else if s <= t then path[n mod 10].stop.x := "
        f"path[{k % 7}].start.y\nend;\n"
    )


def mixed(k: int) -> str:
    """Statements of several kinds, with names of some length: Free Pascal has 65,535 registers for a routine, before it
    places them."""
    return (
        f"counter := counter + {k % 97}; if greatest < total then greatest := total else begin total := counter; "
        "position := 1 end;\n"
        f"while (position < {k % 31}) and y do begin position := position + 1; y := odd(counter) end;\n"
        f"for x := 1 to {k % 11} do total := total + position;\n"
        f"case counter of 1: greatest := {k % 13}; 2: repeat counter := counter + 2 until counter > total end"
    )


def named(length: int, declare: str, use: str) -> str:
    """Names that are declared together in four fifths of the text, and uses of them in an order that is none of
    theirs."""
    room = room_in(length)
    names = parts_of(lambda k: f"v{k}", room * 4 // 5)[:MOST_NAMES]
    declared = declare.format(", ".join(names))
    return whole(length, declared, parts_of(lambda k: use.format(k * 7919 % len(names)), room - len(declared)))


def choice(length: int, element: Callable[[int], str], between: str, tail: str) -> str:
    """One `case`, whose list is as long as there is room for."""
    frame = "case x of {}" + tail
    return whole(length, "", [frame.format(between.join(parts_of(element, room_in(length) - len(frame))))])


RECORDS = (
    "program bench(output);\ntype point = record x, y: integer end; line = record start, stop: point end; digits = "
    "set of 0..31;\n"
    "var a, b, c, x: integer; y: Boolean; path: array [0..9] of line;\n"
)

MORE = "counter, greatest, total, position: integer;\n"

TEXTS = {
    "routines": program(routine, None),
    "expressions": program(expression, None),
    "parentheses": program(None, nest),
    "statements": program(None, blocks),
    "remarks": program(None, remarks),
    "calls": program(small, None),
    "records": RECORDS + program(structured, None, LENGTH - len(RECORDS) + len(HEAD))[len(HEAD) :],
    "one": whole(LENGTH, MORE, parts_of(mixed, room_in(LENGTH) - len(MORE))),
}

SHAPES = {
    "variables": lambda length: named(length, "{}: integer;\n", "v{} := 1"),
    "fields": lambda length: named(length, "r: record {}: integer end;\n", "r.v{} := 1"),
    "assignments": lambda length: program(None, assignments, length),
    "blocks": lambda length: program(None, blocks, length),
    "parentheses": lambda length: program(None, nest, length),
    "operands": lambda length: program(None, operands, length),
    "cases": lambda length: choice(length, "{0}: x := {0}".format, ";\n", " end"),
    "constants": lambda length: choice(length, "{}".format, ", ", ": x := 1 end"),
    "routines": lambda length: program(routine, None, length),
}


def main() -> None:
    folder = sys.argv[1]
    os.makedirs(folder, exist_ok=True)
    for name, text in TEXTS.items():
        with open(os.path.join(folder, f"{name}.pas"), "w", encoding="ascii") as file:
            file.write(text)


if __name__ == "__main__":
    main()

"""Draws texts with one fault each, at a known token, or with two."""

from __future__ import annotations

from random import Random
from typing import Any, Callable, Dict, List, NamedTuple, Optional, Tuple

from . import fault_names, fault_types  # (their ways are in WAYS)
from .fault_blocks import MARKS, TOKEN, WAYS, Drawing, renamed

NAMES = {
    30: "Unknown",
    31: "Twice",
    32: "UsedBefore",
    33: "WrongKind",
    34: "WrongType",
    35: "NotAssignable",
    36: "BadSubrange",
    37: "SetBase",
    38: "CaseTwice",
    39: "ControlVariable",
    40: "PackedVariable",
    41: "NotCongruous",
    42: "ForwardOpen",
    43: "NoResultAssigned",
    44: "NoInputOutput", 45: "Limit",
}  # fmt: skip


class Text(NamedTuple):
    """A text, with the fault that is reported first."""

    text: str
    number: int  # of the refusal, 0 where there is no fault
    line: int
    way: str


# ---- the text

# ways that change the program's parameters, of which a text has one; and those that read, which isn't done without
# input
HEADINGS = {"files", "no_output", "no_input"}
READING = {"a_read_in_the_loop", "a_routine_of_the_block", "a_constant_for_a_variable"}


def go_together(one: Callable[..., Any], other: Callable[..., Any]) -> bool:
    """Whether two ways to break a rule can be in one text."""
    names = {one.__name__, other.__name__}
    return one is not other and len(names & HEADINGS) < 2 and not ("no_input" in names and names & READING)


class Told(NamedTuple):
    """Where a fault is reported: the number of the token at which that is found, that of the marked one, and its
    line."""

    met: int
    token: int
    line: int


def laid(draw: Random, tokens: List[str]) -> Any:
    """The tokens on lines, and the places of the marks of each fault."""
    often, line, text, found = draw.choice((0.03, 0.2, 0.7)), 1, [], {}
    for number, token in enumerate(tokens):
        for mark in token[: len(token) - len(token.lstrip(MARKS))]:
            found.setdefault(mark, (number, line))
        token = token.lstrip(MARKS)
        if token[0].isalpha() and draw.random() < 0.1:
            token = draw.choice((token.upper(), token.capitalize()))
        text.append(token)
        gap = (
            draw.choice(("\n", "\n\n", " \n  ", "\n{ on lines\n}"))
            if draw.random() < often
            else draw.choice((" ", " ", "  ", "{ }"))
        )
        line += gap.count("\n")
        text.append(gap)
    return "".join(text), found


def told_of(found: Dict[str, Tuple[int, int]], told: str, met: str) -> Optional[Told]:
    """Where the fault with these marks is reported, if there is one."""
    return Told(found.get(met, found[told])[0], *found[told]) if told in found else None


def chosen_ways(draw: Random, faults: int) -> List[Tuple[int, Callable[..., Any]]]:
    """A way for each fault, each with its number; two that go together."""
    numbers = [draw.choice(sorted(WAYS)) for _ in range(faults)]
    ways = [(number, draw.choice(WAYS[number])) for number in numbers]
    if faults == 2 and not go_together(ways[0][1], ways[1][1]):
        return chosen_ways(draw, faults)
    # what is drawn in addition to the other fault keeps to the parameters
    return sorted(ways, key=lambda way: way[1].__name__ not in HEADINGS)


def drawn(draw: Random, faults: int) -> Text:
    """A text with so many faults, none, one or two; of two, the one that is reported first."""
    drawing = Drawing(draw)
    ways, blocks = chosen_ways(draw, faults), list(drawing.blocks)
    for _, way in ways:
        for block in drawing.blocks:
            block.rename_marks()
        drawing.parameters = renamed(drawing.parameters)
        way(drawing, draw.choice(blocks))
    text, found = laid(draw, TOKEN.findall(drawing.finish()))
    places = [told_of(found, "#", "?"), told_of(found, "@", "!")][2 - faults :]
    told = min(zip(places, ways), key=lambda pair: pair[0], default=None)
    if not told:
        return Text(text, 0, 0, "")
    return Text(text, told[1][0], told[0].line, " and ".join(way.__name__ for _, way in ways))


def drawn_apart(draw: Random, faults: int) -> Tuple[str, List[Tuple[int, int, str]]]:
    """A text with so many faults, at most five, each in a routine of its own; and of each its number, its line and its
    way."""
    drawing = Drawing(draw)
    known = [(number, way) for number, ways in WAYS.items() for way in ways if way.__name__ not in HEADINGS]
    ways = [
        draw.choice([each for each in known if each[0] == number])
        for number in draw.sample(sorted({number for number, _ in known}), faults)
    ]
    for _, way in ways:
        for block in drawing.blocks:
            block.rename_marks()
        block = drawing.routine(1)
        drawing.program.routines.append(block)
        way(drawing, block)
    text, found = laid(draw, TOKEN.findall(drawing.finish()))
    marks = MARKS[: 2 * faults : 2][::-1]
    return text, [(number, found[mark][1], way.__name__) for mark, (number, way) in zip(marks, ways)]

"""Shapes of texts: their form, and what makes them."""

import dataclasses
from collections.abc import Callable

ORDINARY = "assignments"
# the deepest that a construct may lie in others: with the block, the statement and the operand it is within 500
DEPTH = 490
# a block's variables have 100,000 cells at most
MOST_CELLS = 99_990
# a heading has 32 parameters at most, and routines are nested up to 15 deep
MOST_PARAMETERS = 32
MOST_LEVELS = 15
# lines are 65,535 at most
MOST_LINES = 65_530
HEAD = "program p(input, output); "

Part = str | Callable[[int], str]


@dataclasses.dataclass(frozen=True)
class Shape:
    """A text of a given length, and what it is a lot of. A deep one is nested as deeply as possible."""

    what: str
    make: Callable[[int], str]
    is_deep: bool = False


SHAPES: dict[str, Shape] = {}


def filled(head: str, part: Part, tail: str, length: int, between: str = "", most: int = 10**9) -> str:
    """A head, as many parts as there is room for, each numbered, and a tail."""
    room, parts = length - len(head) - len(tail), []
    while len(parts) < most:
        text = part if isinstance(part, str) else part(len(parts))
        room -= len(text) + (len(between) if parts else 0)
        if room < 0:
            break
        parts.append(text)
    return head + between.join(parts) + tail


def numbered(form: str) -> Callable[[int], str]:
    """A part in which `#` is replaced by its number and `@` by the next one."""
    return lambda number: form.replace("#", str(number)).replace("@", str(number + 1))


def many(
    name: str, what: str, head: str, part: Part, tail: str,
    between: str = "", most: int = 10**9, is_deep: bool = False,
) -> None:
    """A shape of one part that is repeated. In a part `#` is its number, `@` the next one."""
    repeated = numbered(part) if isinstance(part, str) and ("#" in part or "@" in part) else part
    SHAPES[name] = Shape(what, lambda length: filled(head, repeated, tail, length, between, most), is_deep)


def nested(
    name: str, what: str, head: str, opened: str, inmost: str, closed: str, tail: str,
    before: str = "", behind: str = ";", depth: int = DEPTH,
) -> None:
    """A shape of statements that are each as deep as may be, or as there is room for."""

    def make(length: int) -> str:
        room = length - len(head) - len(tail) - len(before) - len(inmost) - len(behind)
        levels = min(depth, room // (len(opened) + len(closed)))
        return filled(head, before + opened * levels + inmost + closed * levels + behind, tail, length)

    SHAPES[name] = Shape(what, make, True)


def shape(is_deep: bool = False) -> Callable[[Callable[[int], str]], Callable[[int], str]]:
    """Adds a function of the length, whose first line says what it is a lot of, to the shapes."""

    def put(make: Callable[[int], str]) -> Callable[[int], str]:
        SHAPES[make.__name__] = Shape((make.__doc__ or "").rstrip("."), make, is_deep)
        return make

    return put


def names(start: str, count: int, between: str = ",") -> str:
    """Numbered names."""
    return between.join(f"{start}{number}" for number in range(count))


def last_name(definitions: str) -> str:
    """The name that the last of some definitions defines."""
    return definitions.rstrip(";").rsplit(";", 1)[-1].split("=")[0].strip()


def program(declarations: str, statements: str) -> str:
    """A whole program."""
    return f"program p; {declarations} begin {statements} end.\n"

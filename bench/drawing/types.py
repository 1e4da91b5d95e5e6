"""What programs are made of - values, types, variables, routines, blocks - and how types are drawn."""

from __future__ import annotations

from random import Random
from typing import Any, Callable, List, NamedTuple, Optional, Tuple, Union

FACTOR, TERM, SIMPLE, RELATION = 3, 2, 1, 0  # how tightly an expression binds
LIMIT = 999  # variables of type integer lie in -LIMIT..LIMIT
FORMAL_COST = 100  # of a routine that is passed
DEPTH = 3  # the most that a recursive routine's first parameter is
NAMES = "a b c d f g h m q r s u v w x y z".split()  # of variables, parameters and fields: they often hide one another


class Value(NamedTuple):
    """An expression, with the bounds of its ordinal, or of its members. Free Pascal doesn't take a bare one to be of
    its host type."""

    text: str
    binding: int
    low: int = 0
    high: int = 0
    bare: bool = False

    def at(self, binding: int) -> str:
        """The text, in parentheses if an operator of this binding needs them."""
        return self.text if self.binding >= binding else f"({self.text})"


class Ordinal(NamedTuple):
    """An ordinal type: its name, its host's name, its bounds and its denoter."""

    name: str
    host: str
    low: int
    high: int
    denoter: str = ""


class SetOf(NamedTuple):
    """A set type."""

    name: str
    base: Ordinal
    denoter: str


class Array(NamedTuple):
    """An array type."""

    name: str
    packed: bool
    index: Ordinal
    component: object
    denoter: str

    def is_string(self) -> bool:
        """Whether it is a string type."""
        return (
            self.packed
            and self.component.name == "char"
            and self.index.host == "integer"
            and self.index.low == 1 < self.index.high
        )


class Record(NamedTuple):
    """A record type."""

    name: str
    packed: bool
    fields: list
    denoter: str


class Pointer(NamedTuple):
    """A pointer type, and the record that its values identify."""

    name: str
    node: Record
    denoter: str


PascalType = Union[Ordinal, SetOf, Array, Record, Pointer]


class Variable(NamedTuple):
    """A variable, with the level of the block that declares it: -1 if a pointer leads to it."""

    text: str
    type: object
    level: int
    writable: bool = True
    packed: bool = False


class Section(NamedTuple):
    """Parameters of one kind and type, or one routine of a signature."""

    kind: str
    type: object
    count: int = 1


class Signature(NamedTuple):
    """The parameters of a routine, and the type of its result."""

    sections: tuple
    result: Optional[object]


class Routine:
    """A routine, with the level of the block that declares it. Recursive routines have a group, alone or as a pair."""

    def __init__(self, name: str, signature: Signature, home: int, pure: bool = False, group: Any = None) -> None:
        self.name, self.signature, self.home, self.pure, self.group = name, signature, home, pure, group
        self.complete = self.formal = False
        self.cost = FORMAL_COST


class Block:
    """A block that is being drawn. Within `pure` only variables of that level and above change."""

    def __init__(self, level: int, pure: Optional[int]) -> None:
        self.level, self.pure = level, pure
        self.routines, self.helpers, self.busy = [], [], set()
        self.cost = 0

    def helper(self, prefix: str, type: Ordinal) -> str:
        """A variable of the block for a loop's control or count, which no loop around uses."""
        for name, held in self.helpers:
            if held == type and name.startswith(prefix) and name not in self.busy:
                break
        else:
            name = f"{prefix}{len(self.helpers) + 1}"
            self.helpers.append((name, type))
        self.busy.add(name)
        return name


def indented(lines: List[str]) -> List[str]:
    """Lines with two more spaces before them."""
    return ["  " + line for line in lines]


def sequence(statements: List[Any]) -> List[str]:
    """Statements one after another, each a list of lines."""
    lines = []
    for statement in statements:
        if lines:
            lines[-1] += ";"
        lines += statement
    return lines


def compound(statements: List[Any]) -> List[str]:
    """The lines of a compound statement."""
    return ["begin", *indented(sequence(statements)), "end"]


class Types:
    """Types, each of which has a name."""

    def __init__(self, draw: Random) -> None:
        self.draw = draw
        self.enumerations = {}
        self.count = 0
        integer = Ordinal("integer", "integer", -LIMIT, LIMIT)
        char = Ordinal("char", "char", 32, 126)
        boolean = Ordinal("Boolean", "Boolean", 0, 1)
        self.hosts = {"integer": integer, "char": char, "Boolean": boolean}
        self.depth = Ordinal("depth", "integer", 0, DEPTH, f"0..{DEPTH}")
        self.types = [integer, char, boolean, self.depth]
        self.constants = []

    def chance(self, share: float) -> bool:
        """True with this probability."""
        return self.draw.random() < share

    def fresh(self, prefix: str) -> str:
        """A new name."""
        self.count += 1
        return f"{prefix}{self.count}"

    def literal(self, host: str, ordinal: int) -> str:
        """The constant of a host type with this ordinal number."""
        if host == "integer":
            return str(ordinal)
        if host == "char":
            return "''''" if ordinal == 39 else f"'{chr(ordinal)}'"
        return ("false", "true")[ordinal] if host == "Boolean" else self.enumerations[host][ordinal]

    def drawn_literal(self, type: Ordinal) -> str:
        """A constant of a type."""
        return self.literal(type.host, self.draw.randint(type.low, type.high))

    def string(self, length: int) -> str:
        """A string of this length."""
        text = "".join(chr(self.draw.choice((32, 39, 65, 66, 97, 98, 122, 126))) for _ in range(length))
        return "'" + text.replace("'", "''") + "'"

    def add(self, type: PascalType) -> PascalType:
        """Adds a type."""
        self.types.append(type)
        return type

    def of(self, kind: Any) -> List[Any]:
        """The types of a kind."""
        return [type for type in self.types if isinstance(type, kind)]

    def enumeration(self) -> None:
        name = self.fresh("t")
        values = [f"{name}{letter}" for letter in "abcdef"[: self.draw.randint(2, 6)]]
        self.enumerations[name] = values
        self.hosts[name] = self.add(Ordinal(name, name, 0, len(values) - 1, f"({', '.join(values)})"))

    def subrange(self, host: Ordinal, width: int, low: Optional[int] = None) -> Ordinal:
        low = self.draw.randint(host.low, host.high) if low is None else low
        high = min(host.high, low + self.draw.randint(0, width))
        return Ordinal(
            self.fresh("t"), host.host, low, high, f"{self.literal(host.host, low)}..{self.literal(host.host, high)}"
        )

    def small(self) -> Ordinal:
        """An ordinal type of few values."""
        fitting = [type for type in self.of(Ordinal) if type.high - type.low < 6]
        return self.draw.choice(fitting)

    def set_type(self) -> SetOf:
        bases = [type for type in self.of(Ordinal) if type.low >= 0 and type.high <= 255]
        base = self.draw.choice(bases)
        return SetOf(self.fresh("t"), base, f"set of {base.name}")

    def array(self, packed: bool, index: Ordinal, component: PascalType) -> Array:
        word = "packed array" if packed else "array"
        return Array(
            self.fresh("t"), packed, index, component, f"{word} [{index.name or index.denoter}] of {component.name}"
        )

    def string_type(self) -> Array:
        high = self.draw.randint(2, 6)
        return self.array(True, Ordinal("", "integer", 1, high, f"1..{high}"), self.hosts["char"])

    def record(self, names: List[str], packed: bool = False) -> Record:
        fields = [(name, self.draw.choice(self.types)) for name in names]
        texts = "; ".join(f"{name}: {type.name}" for name, type in fields)
        return Record(self.fresh("t"), packed, fields, f"{'packed ' if packed else ''}record {texts} end")

    def node(self) -> None:
        """A pointer type and the type of its variables, which holds a pointer of the same type."""
        pointer, record = self.fresh("t"), self.fresh("t")
        names = self.draw.sample(NAMES, self.draw.randint(2, 3))
        fields = [(name, self.draw.choice(self.types)) for name in names]
        node = Record(record, False, fields, "")
        held = Pointer(pointer, node, f"^{record}")
        fields.append((self.draw.choice([name for name in NAMES if name not in names]), held))
        node = node._replace(denoter=f"record {'; '.join(f'{name}: {type.name}' for name, type in fields)} end")
        self.add(held._replace(node=node))
        fields[-1] = (fields[-1][0], self.types[-1])
        self.add(node)

    def cells(self, type: PascalType) -> int:
        """How many simple components a variable of the type has."""
        if isinstance(type, Array):
            return (type.index.high - type.index.low + 1) * self.cells(type.component)
        return sum(self.cells(held) for _, held in type.fields) if isinstance(type, Record) else 1

    def add_small(self, make: Callable[..., Any]) -> None:
        """Adds a type that `make` draws, not too large a one."""
        type = make()
        while self.cells(type) > 30:
            type = make()
        self.add(type)

    def draw_types(self) -> None:
        """Draws the types of the program."""
        draw = self.draw
        for _ in range(draw.randint(1, 2)):
            self.enumeration()
        integer, char = self.hosts["integer"], self.hosts["char"]
        self.add(self.subrange(integer, 5))
        self.add(self.subrange(integer, 40, draw.randint(-20, 20)))
        self.add(self.subrange(integer, 255 - 40, draw.randint(0, 40)))
        self.add(self.subrange(char, 5))
        self.add(self.subrange(self.hosts[draw.choice(list(self.enumerations))], 3))
        for _ in range(draw.randint(1, 3)):
            self.add(self.set_type())
        self.add(self.string_type())
        self.pairs = [self.packing_pair() for _ in range(draw.randint(0, 2))]
        self.node()
        for _ in range(draw.randint(2, 5)):
            kind = draw.randrange(4)
            if kind < 2:
                self.add_small(lambda: self.array(self.chance(0.3), self.small(), draw.choice(self.types)))
            elif kind == 2:
                self.add_small(lambda: self.record(draw.sample(NAMES, draw.randint(1, 4)), self.chance(0.2)))
            else:
                self.node()

    def packing_pair(self) -> Tuple[Array, Array]:
        """Two array types for pack and unpack. Free Pascal has them for indices of type integer only."""
        component = self.draw.choice(self.of(Ordinal))
        whole = Ordinal("", "integer", self.draw.randint(-2, 2), 0)
        whole = whole._replace(high=whole.low + self.draw.randint(1, 5))
        part = Ordinal("", "integer", self.draw.randint(-2, 2), 0)
        part = part._replace(high=part.low + self.draw.randint(0, whole.high - whole.low))
        indices = [index._replace(denoter=f"{index.low}..{index.high}") for index in (whole, part)]
        return self.add(self.array(False, indices[0], component)), self.add(self.array(True, indices[1], component))

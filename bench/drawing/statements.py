"""Statements that end and meet no error."""

from __future__ import annotations

from random import Random
from typing import Any, Dict, List, Optional, Tuple

from .expressions import Expressions
from .types import (
    FACTOR, SIMPLE, Array, Ordinal, PascalType, Pointer, Record, Routine, SetOf, Value, Variable, compound,
    indented, sequence,
)  # fmt: skip


class Statements(Expressions):
    """Statements, each a list of lines without a semicolon at its end."""

    def __init__(self, draw: Random) -> None:
        super().__init__(draw)
        # the recursive routines that are being drawn: their group, and the name of the parameter that decreases
        self.open = []
        self.results = []  # the functions that are being drawn, as variables that are only assigned

    def impure(self) -> bool:
        """Whether a statement here may change anything."""
        return self.blocks[-1].pure is None

    def nested(self, size: int, times: int = 1, scope: Optional[Dict[str, Variable]] = None) -> List[str]:
        """A statement that is run so many times."""
        self.factor *= times
        self.scopes.append(scope or {})
        lines = (
            compound([self.statement(size - 1) for _ in range(self.draw.randint(1, 3))])
            if self.chance(0.8)
            else self.statement(size - 1)
        )
        self.scopes.pop()
        self.factor //= times
        return lines

    def statement(self, size: int) -> List[str]:
        self.spend(1)
        ways = [self.assignment] * 4 + [self.procedure_call] * 3 + [
            self.whole_assignment, self.set_assignment, self.result_assignment, self.packing
        ]
        if self.impure():
            ways += [
                self.impure_assignment,
                self.write,
                self.write,
                self.make,
                self.through_pointer,
                self.recursion,
                self.recursion,
            ]
        if self.reads and self.impure():
            ways += [self.read_character]
        if size > 0:
            ways += [self.if_statement, self.if_statement, self.case_statement] + [self.with_statement] * 2
            if self.factor < 60:
                ways += [self.for_statement, self.for_statement, self.while_statement, self.repeat_statement]
        for _ in range(8):
            lines = self.draw.choice(ways)(size)
            if lines:
                return lines
        return []

    def assigned(self, kind: Any) -> Optional[Variable]:
        """A variable of a type of this kind that may be assigned to."""
        return self.access(lambda type: isinstance(type, kind), self.is_writable)

    def assignment(self, _: int) -> Optional[List[str]]:
        found = self.assigned(Ordinal)
        return found and [f"{found.text} := {self.value_of(found.type).text}"]

    def whole_assignment(self, _: int) -> Optional[List[str]]:
        """An assignment of a whole structured variable or a pointer."""
        found = self.assigned((Array, Record, Pointer))
        value = found and self.value_of(found.type)
        return value and [f"{found.text} := {value.text}"]

    def set_assignment(self, _: int) -> Optional[List[str]]:
        found = self.assigned(SetOf)
        return found and [f"{found.text} := {self.value_of(found.type).text}"]

    def result_assignment(self, _: int) -> Optional[List[str]]:
        """An assignment to a function's result."""
        pure = self.blocks[-1].pure
        results = [variable for variable in self.results if pure is None or variable.level >= pure]
        if not results:
            return None
        result = self.draw.choice(results)
        return [f"{result.text} := {self.value_of(result.type).text}"]

    def impure_call(self, type: PascalType) -> Optional[Value]:
        """One call of any function. Free Pascal makes it twice before mod."""

        def fits(routine: Routine) -> bool:
            result = routine.signature.result
            if result is None or isinstance(type, Pointer) or isinstance(result, Pointer):
                return result is type
            return result.host == type.host and type.low <= result.low and result.high <= type.high

        return self.call(fits)

    def entire(self) -> List[Variable]:
        """The variables that are assigned to without an index or a pointer, which a call could change."""
        return [variable for variable in self.visible() if self.is_writable(variable) and variable.text.isalnum()]

    def impure_assignment(self, _: int) -> Optional[List[str]]:
        """An assignment of a function that changes something."""
        entire = [variable for variable in self.entire() if isinstance(variable.type, (Ordinal, Pointer))]
        if not entire:
            return None
        variable = self.draw.choice(entire)
        called = self.impure_call(variable.type)
        return called and [f"{variable.text} := {called.text}"]

    def test(self) -> Value:
        """A condition, now and then of one call."""
        type = self.hosts[self.draw.choice(list(self.hosts))]
        called = self.impure_call(type) if self.chance(0.3) else None
        if not called:
            return self.ordinal("Boolean", 0, 1)
        called = self.hosted(called, type.host)
        loops = [
            variable.text
            for variable in self.visible()
            if variable.text in self.blocks[-1].busy and variable.type.host == "integer"
        ]
        if loops and type.host == "Boolean":
            # no call changes the variable of a loop, so the order of these two operands does not matter
            bound = f"({self.draw.choice(loops)} {self.draw.choice(('<', '>='))} {self.draw.randint(0, 5)})"
            return Value(f"{bound} {self.draw.choice(('and', 'or'))} {called.text}", SIMPLE, 0, 1)
        return self.relation(called, self.draw.choice(("=", "<>", "<", ">=")), Value(self.drawn_literal(type), SIMPLE))

    def procedure_call(self, _: int) -> Optional[List[str]]:
        called = self.call(lambda routine: routine.signature.result is None)
        return called and [called.text]

    def recursion(self, _: int) -> Optional[List[str]]:
        """A call of a routine that is being drawn, or of the one that is drawn with it, if the parameter can still be
        decreased."""
        pairs = [
            (routine, name)
            for group, name in self.open
            for block in self.blocks
            for routine in block.routines
            if routine.group is group
        ]
        if not pairs:
            return None
        routine, name = self.draw.choice(pairs)
        text = self.call_text(routine, name)
        if not text:
            return None
        if routine.signature.result:
            entire = [variable.text for variable in self.entire() if variable.type is routine.signature.result]
            if not entire:
                return None
            text = f"{self.draw.choice(entire)} := {text}"
        return [f"if {name} > 0 then", *indented(compound([[f"{name} := {name} - 1"], [text]]))]

    def if_statement(self, size: int) -> List[str]:
        condition = self.test().text
        if self.chance(0.4):
            # also an if with its else right after then: the else is the nearest one's
            return [f"if {condition} then", *indented(self.nested(size))]
        then = indented(compound([self.statement(size - 1)]))
        other = self.nested(size)
        return [f"if {condition} then", *then, "else", *indented(other)]

    def case_statement(self, size: int) -> List[str]:
        host = self.draw.choice(list(self.hosts.values()))
        low = self.draw.randint(max(host.low, -50), min(host.high, 100))
        high = min(host.high, low + self.draw.randint(0, 5))
        part = Ordinal("", host.host, low, high)
        index = (self.impure_call(part) if self.chance(0.3) else None) or self.ordinal(host.host, low, high)
        # Free Pascal takes a function's name alone to be no call here
        index = self.hosted(index._replace(bare=index.bare or index.text.isalnum()), host.host)
        labels = [self.literal(host.host, ordinal) for ordinal in range(low, high + 1)]
        self.draw.shuffle(labels)
        elements = []
        while labels:
            # Free Pascal evaluates no index if one element has both truth values
            count = 1 if host.host == "Boolean" else self.draw.randint(1, len(labels))
            elements.append([f"{', '.join(labels[:count])}:", *indented(self.nested(size))])
            labels = labels[count:]
        return [f"case {index.text} of", *indented(sequence(elements)), "end"]

    def for_statement(self, size: int) -> List[str]:
        host = self.draw.choice([type for type in self.of(Ordinal) if type.name != "depth"])
        low = self.draw.randint(host.low, host.high)
        high = min(host.high, low + self.draw.randint(0, 4))
        block = self.blocks[-1]
        name = block.helper("i", host)
        part = Ordinal(host.name, host.host, low, high)
        first, last = (
            (self.impure_call(part) if self.chance(0.1) else None) or Value(self.drawn_literal(part), FACTOR)
            for _ in range(2)
        )
        if first.binding == last.binding == FACTOR and self.chance(0.5):
            first, last = (self.ordinal(host.host, low, high) for _ in range(2))
        if self.chance(0.3):
            first, last = (
                Value(self.literal(host.host, ordinal), FACTOR) for ordinal in self.draw.sample((low, high), 2)
            )
        way = self.draw.choice(("to", "downto"))
        body = self.nested(size, high - low + 1, {name: Variable(name, part, block.level, False)})
        block.busy.remove(name)
        return [f"for {name} := {first.text} {way} {last.text} do", *indented(body)]

    def counted(self, size: int) -> Tuple[str, int, Value, List[str]]:
        """A count, its limit, and the statements that it counts."""
        block = self.blocks[-1]
        name, most = block.helper("k", self.hosts["integer"]), self.draw.randint(1, 5)
        condition = self.ordinal("Boolean", 0, 1)
        scope = {name: Variable(name, Ordinal("integer", "integer", 0, most), block.level, False)}
        body = sequence([[f"{name} := {name} + 1"], self.nested(size, most, scope)])
        block.busy.remove(name)
        return name, most, condition, body

    def while_statement(self, size: int) -> List[str]:
        name, most, condition, body = self.counted(size)
        return compound(
            [
                [f"{name} := 0"],
                [
                    f"while ({name} < {most}) and {condition.at(FACTOR)} do",
                    *indented(["begin", *indented(body), "end"]),
                ],
            ]
        )

    def repeat_statement(self, size: int) -> List[str]:
        name, most, condition, body = self.counted(size)
        return compound(
            [[f"{name} := 0"], ["repeat", *indented(body), f"until ({name} >= {most}) or {condition.at(FACTOR)}"]]
        )

    def fields(self, record: Variable) -> Dict[str, Variable]:
        """The scope that a with statement opens."""
        packed = record.packed or record.type.packed
        return {name: record._replace(text=name, type=type, packed=packed) for name, type in record.type.fields}

    def accessed_record(self) -> Any:
        """A record, or one that a pointer leads to, and the pointer."""
        if self.chance(0.4):
            found = self.access(lambda type: isinstance(type, Pointer))
            if found:
                return Variable(f"{found.text}^", found.type.node, -1), found.text
        return self.access(lambda type: isinstance(type, Record)), None

    def with_statement(self, size: int) -> Optional[List[str]]:
        record, pointer = self.accessed_record()
        if not record:
            return None
        scope, records = self.fields(record), record.text
        if self.chance(0.3):
            self.scopes.append(scope)
            second = self.access(lambda type: isinstance(type, Record))
            self.scopes.pop()
            if second:
                scope, records = {**scope, **self.fields(second)}, f"{records}, {second.text}"
        lines = [f"with {records} do", *indented(self.nested(size, 1, scope))]
        return [f"if {pointer} <> nil then", *indented(lines)] if pointer else lines

    def through_pointer(self, _: int) -> Optional[List[str]]:
        """An assignment to or from what a pointer leads to."""
        found = self.access(lambda type: isinstance(type, Pointer))
        if not found:
            return None
        name = f"{found.text}^"
        self.scopes.append({name: Variable(name, found.type.node, -1)})
        for _ in range(20):
            lines = self.draw.choice(
                (self.assignment, self.assignment, self.set_assignment, self.whole_assignment, self.procedure_call)
            )(0)
            if lines and name in lines[0]:
                break
        self.scopes.pop()
        return lines and [f"if {found.text} <> nil then", *indented(lines)]

    def make(self, _: int) -> Optional[List[str]]:
        """A `new`."""
        found = self.assigned(Pointer)
        # An index that looks at pointers may be another one after `new`, and Free Pascal has no first value for what
        # is not filled then. Pointers after an index are left out with them.
        if not found or any(mark in found.text.partition("[")[2] for mark in "=<>^"):
            return None
        node = found.type.node
        return compound([[f"new({found.text})"], [f"fill{node.name}({found.text}^, {self.draw.randint(0, 99)})"]])

    def packing(self, _: int) -> Optional[List[str]]:
        """A `pack` or an `unpack`."""
        if not self.pairs:
            return None
        whole, part = self.draw.choice(self.pairs)
        plain, packed = (self.access(lambda type: type is held, self.is_writable) for held in (whole, part))
        if not plain or not packed:
            return None
        room = (whole.index.high - whole.index.low) - (part.index.high - part.index.low)
        bounds = "integer", whole.index.low, whole.index.low + room
        index = self.ordinal(*bounds).text
        if "[" in index or "p" in index:
            # Free Pascal evaluates the index again for each component, which it can change
            index = self.constant(*bounds).text
        return [
            f"pack({plain.text}, {index}, {packed.text})"
            if self.chance(0.5)
            else f"unpack({packed.text}, {plain.text}, {index})"
        ]

    def width(self) -> str:
        """A field width."""
        return self.fitting(self.integer(1), 1, 12).text if self.chance(0.3) else str(self.draw.randint(1, 12))

    def written(self) -> str:
        """A parameter of write. Widths of integers and Booleans are left to no default."""
        way = self.draw.randrange(6)
        if way == 0:
            found = self.access(lambda type: isinstance(type, Array) and type.is_string())
            text = found.text if found else self.string(self.draw.randint(2, 6))
            return text if self.chance(0.3) else f"{text}:{self.width()}"
        host = self.draw.choice(("integer", "integer", "char", "Boolean"))
        value = self.ordinal(host, self.hosts[host].low, self.hosts[host].high)
        if value.binding < FACTOR:
            value = self.hosted(value, host)  # Free Pascal takes some differences to have no sign
        return value.text if host == "char" and self.chance(0.5) else f"{value.text}:{self.width()}"

    def write(self, _: int) -> Optional[List[str]]:
        if self.factor > 40:
            return None
        called = self.impure_call(self.hosts["integer"]) if self.chance(0.2) else None
        if called:
            return [f"write({called.text}:{self.draw.randint(1, 8)})"]
        items = ", ".join(self.written() for _ in range(self.draw.randint(1, 3)))
        return [f"{self.draw.choice(('write', 'writeln'))}({items})"] if self.chance(0.95) else ["writeln"]

    def readable(self, host: str) -> Optional[Variable]:
        """A variable to read. Free Pascal reads no component of a packed one if arrays can be packed by pack."""

        def is_readable(variable: Variable) -> bool:
            """Whether a variable may be read."""
            return self.is_writable(variable) and not (variable.packed and self.pairs)

        return self.access(
            lambda type: isinstance(type, Ordinal) and type.host == host and (host == "integer" or type.name == host),
            is_readable,
        )

    def read_character(self, _: int) -> Optional[List[str]]:
        found = self.readable("char")
        if not found:
            return None
        return [
            "if not eof then",
            *indented(
                ["if eoln then", "  readln", "else", f"  {self.draw.choice(('read', 'read', 'readln'))}({found.text})"]
            ),
        ]

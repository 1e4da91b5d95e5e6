"""Expressions that change nothing and meet no error, with the bounds of their values."""

from __future__ import annotations

import re
from random import Random
from typing import Any, Callable, Iterator, List, Optional, Tuple

from .types import (
    DEPTH, FACTOR, FORMAL_COST, RELATION, SIMPLE, TERM, Array, Ordinal, PascalType, Pointer, Record, Routine,
    Section, SetOf, Types, Value, Variable,
)  # fmt: skip

LARGEST = 1_000_000_000  # expressions of integers lie within this, both ways
COST = 3_000  # the most statements that one statement may run, as far as is foreseen
RELATIONS = ("=", "<>", "<", ">", "<=", ">=")
CONSTANT_WORDS = set("abs sqr odd ord chr succ pred div mod and or not in false true".split())


class Expressions(Types):
    """Expressions that change nothing, over what is visible."""

    def __init__(self, draw: Random) -> None:
        super().__init__(draw)
        self.scopes = []  # dictionaries of variables by their names, the innermost last
        self.blocks = []
        self.factor = 1  # how often the statement that is drawn is run, each time that its block is
        self.reads = False
        self.inner = 0  # how many indices and actual parameters lie around what is drawn

    def spend(self, cost: int) -> bool:
        """Foresees a cost here, or answers that it would be too high."""
        if self.factor * cost > COST:
            return False
        self.blocks[-1].cost += self.factor * cost
        return True

    def visible(self) -> List[Variable]:
        """The variables that a use here can name."""
        found = {}
        for scope in self.scopes:
            found.update(scope)
        return list(found.values())

    def is_writable(self, variable: Variable) -> bool:
        """Whether a statement here may change a variable."""
        pure = self.blocks[-1].pure
        return variable.writable and (pure is None or variable.level >= pure)

    def access(
        self, wanted: Callable[..., Any], fitting: Callable[..., Any] = lambda variable: True
    ) -> Optional[Variable]:
        """A variable of the given type, or None."""
        visible = self.visible()
        for _ in range(15 if visible else 0):
            variable = self.draw.choice(visible)
            while isinstance(variable.type, (Array, Record)) and not (wanted(variable.type) and self.chance(0.6)):
                variable = self.component(variable)
            if wanted(variable.type) and fitting(variable):
                return variable
        return None

    def inside(self, make: Callable[..., Any]) -> Any:
        """What is drawn as an index or an actual parameter."""
        self.inner += 1
        made = make()
        self.inner -= 1
        return made

    def component(self, variable: Variable) -> Variable:
        """A component of an array or a record."""
        type = variable.type
        packed = variable.packed or type.packed
        if isinstance(type, Record):
            name, held = self.draw.choice(type.fields)
            return variable._replace(text=f"{variable.text}.{name}", type=held, packed=packed)
        index = self.inside(lambda: self.ordinal(type.index.host, type.index.low, type.index.high, 1)).text
        joined = variable.text.endswith("]") and self.chance(0.5)
        text = f"{variable.text[:-1]}, {index}]" if joined else f"{variable.text}[{index}]"
        return variable._replace(text=text, type=type.component, packed=packed)

    def fitting(self, value: Value, low: int, high: int) -> Value:
        """A value of an integer brought into a range."""
        if low <= value.low and value.high <= high:
            return value
        if low == high:
            return Value(str(low), FACTOR if low >= 0 else SIMPLE, low, low)
        cut = f"{self.hosted(value).at(TERM)} mod {high - low + 1}"
        if low == 0:
            return Value(cut, TERM, low, high)
        return Value(f"{cut} {'+' if low > 0 else '-'} {abs(low)}", SIMPLE, low, high)

    def integer(self, depth: int) -> Value:
        if depth > 0 and self.chance(0.75):
            way = self.draw.choice(
                (
                    self.sum,
                    self.sum,
                    self.product,
                    self.quotient,
                    self.modulus,
                    self.sign,
                    self.required,
                    self.ordinal_number,
                )
            )
            value = way(depth - 1)
            if value and -LARGEST <= value.low and value.high <= LARGEST:
                return value
        return self.integer_leaf()

    def integer_leaf(self) -> Value:
        """An integer without operators: a call, a variable or a number."""
        way = self.draw.randrange(5 if self.inner < 3 else 2)
        if way == 0:
            called = self.pure_call("integer", -LARGEST, LARGEST)
            if called:
                return called
        if way == 1 and self.constants:
            name, number = self.draw.choice(self.constants)
            return Value(name, FACTOR, number, number)
        if way > 1:
            found = self.access(lambda type: isinstance(type, Ordinal) and type.host == "integer")
            if found:
                return self.held(found)
        number = self.draw.choice((0, 1, 2, 3, 7, 10, self.draw.randint(-100, 400)))
        return Value(str(number), FACTOR if number >= 0 else SIMPLE, number, number)

    def sum(self, depth: int) -> Value:
        left, right = self.integer(depth), self.integer(depth)
        if self.chance(0.5):
            return Value(
                f"{left.at(SIMPLE)} + {right.at(TERM)}",
                SIMPLE,
                left.low + right.low,
                left.high + right.high,
                self.mixed(left, right),
            )
        return Value(
            f"{left.at(SIMPLE)} - {right.at(TERM)}",
            SIMPLE,
            left.low - right.high,
            left.high - right.low,
            self.mixed(left, right),
        )

    def product(self, depth: int) -> Value:
        left, right = self.hosted(self.integer(depth)), self.hosted(self.integer(depth))
        corners = [a * b for a in (left.low, left.high) for b in (right.low, right.high)]
        return Value(f"{left.at(TERM)} * {right.at(FACTOR)}", TERM, min(corners), max(corners))

    def hosted(self, value: Value, host: str = "integer") -> Value:
        """Free Pascal takes what is next to a value of a subrange to be of the subrange, and `ord` of a Boolean to be a
        byte, so a function makes it one of the host type."""
        return Value(f"host{host}({value.text})", FACTOR, value.low, value.high) if value.bare else value

    def mixed(self, left: Value, right: Value) -> bool:
        """Whether Free Pascal takes an operation on integers to be of a type of its own."""
        return left.bare or right.bare

    def divisor(self, depth: int) -> Value:
        """A divisor, which is above 0."""
        if self.chance(0.6):
            number = self.draw.randint(1, 30)
            return Value(str(number), FACTOR, number, number)
        value = self.hosted(self.integer(depth))
        return Value(f"(abs({value.text}) + 1)", FACTOR, 1, max(abs(value.low), abs(value.high)) + 1)

    def quotient(self, depth: int) -> Value:
        """A quotient."""
        left, right = self.integer(depth), self.divisor(depth)
        most = max(abs(left.low), abs(left.high))
        if self.chance(0.3):
            right = Value(f"(-{right.text})", FACTOR)
        return Value(f"{self.hosted(left).at(TERM)} div {right.text}", TERM, -most, most)

    def modulus(self, depth: int) -> Value:
        left, right = self.integer(depth), self.divisor(depth)
        return Value(f"{self.hosted(left).at(TERM)} mod {right.text}", TERM, 0, right.high - 1)

    def sign(self, depth: int) -> Value:
        """An integer with a sign before it."""
        value = self.integer(depth)
        if self.chance(0.2):
            return Value(f"+{value.at(TERM)}", SIMPLE, value.low, value.high, value.bare)
        return Value(f"-{value.at(TERM)}", SIMPLE, -value.high, -value.low, value.bare)

    def required(self, depth: int) -> Value:
        """A call of a required function of integers."""
        value = self.hosted(self.integer(depth))
        most = max(abs(value.low), abs(value.high))
        bounds = {
            "abs": (0, most),
            "sqr": (0, most * most),
            "succ": (value.low + 1, value.high + 1),
            "pred": (value.low - 1, value.high - 1),
        }
        name = self.draw.choice(list(bounds))
        return Value(f"{name}({value.text})", FACTOR, *bounds[name])

    def ordinal_number(self, depth: int) -> Optional[Value]:
        """The ordinal number of a value that isn't an integer."""
        host = self.draw.choice(list(self.hosts.values()))
        if host.host == "integer":
            return None
        value = self.ordinal(host.host, host.low, host.high, depth)
        return Value(f"ord({value.text})", FACTOR, value.low, value.high, True)

    def pure_call(self, host: str, low: int, high: int) -> Optional[Value]:
        """A call of a function that changes nothing, with a result within the bounds."""
        def fits(routine: Routine) -> bool:
            result = routine.signature.result
            return (
                routine.pure
                and isinstance(result, Ordinal)
                and result.host == host
                and low <= result.low
                and result.high <= high
            )

        return self.call(fits)

    def ordinal(self, host: str, low: int, high: int, depth: int = 2) -> Value:
        """A value of a host type within bounds."""
        if host == "integer":
            return self.fitting(self.integer(depth), low, high)
        if self.inner > 2:
            return self.constant(host, low, high)
        if host == "Boolean" and low < high and depth > 0 and self.chance(0.8):
            return self.condition(depth - 1)
        way = self.draw.choice(
            (self.variable_within, self.variable_within, self.step, self.step, self.character, self.pure_call)
        )
        value = (
            way(host, low, high) if way in (self.variable_within, self.pure_call) else way(host, low, high, depth - 1)
        )
        return value or self.constant(host, low, high)

    def constant(self, host: str, low: int, high: int) -> Value:
        """A constant within the bounds."""
        ordinal = self.draw.randint(low, high)
        return Value(self.literal(host, ordinal), FACTOR, ordinal, ordinal)

    def variable_within(self, host: str, low: int, high: int) -> Optional[Value]:
        """A variable whose type lies within the bounds."""
        found = self.access(
            lambda type: isinstance(type, Ordinal) and type.host == host and low <= type.low and type.high <= high
        )
        return found and self.held(found)

    def held(self, variable: Variable) -> Value:
        """The value of a variable of an ordinal type."""
        type = variable.type
        return Value(variable.text, FACTOR, type.low, type.high, type.name != type.host)

    def step(self, host: str, low: int, high: int, depth: int) -> Optional[Value]:
        """A call of `succ` or `pred`."""
        if depth < 0 or low == high:
            return None
        if self.chance(0.5):
            value = self.ordinal(host, max(low - 1, self.hosts[host].low), high - 1, depth)
            return Value(f"succ({value.text})", FACTOR, value.low + 1, value.high + 1, value.bare)
        value = self.ordinal(host, low + 1, min(high + 1, self.hosts[host].high), depth)
        return Value(f"pred({value.text})", FACTOR, value.low - 1, value.high - 1, value.bare)

    def character(self, host: str, low: int, high: int, depth: int) -> Optional[Value]:
        """A call of `chr`."""
        if host != "char":
            return None
        value = self.ordinal("integer", low, high, depth)
        return Value(f"chr({value.text})", FACTOR, value.low, value.high)

    def condition(self, depth: int) -> Value:
        ways = [
            self.comparison,
            self.comparison,
            self.membership,
            self.inclusion,
            self.string_comparison,
            self.pointer_comparison,
            self.odd,
        ]
        if self.reads:
            ways.append(self.at_end)
        if depth > 0:
            ways += [self.connection, self.connection, self.negation]
        found = None
        while not found:
            found = self.draw.choice(ways)(depth)
        return found

    def relation(self, left: Value, sign: str, right: Value) -> Value:
        return Value(f"{left.at(SIMPLE)} {sign} {right.at(SIMPLE)}", RELATION, 0, 1)

    def comparison(self, depth: int) -> Value:
        host = self.draw.choice(list(self.hosts.values()))
        left, right = (self.hosted(self.ordinal(host.host, host.low, host.high, depth), host.host) for _ in range(2))
        return self.relation(left, self.draw.choice(RELATIONS), right)

    def connection(self, depth: int) -> Value:
        """An `and` or an `or`."""
        left, right = (self.ordinal("Boolean", 0, 1, depth) for _ in range(2))
        if self.chance(0.5):
            return Value(f"{left.at(TERM)} and {right.at(FACTOR)}", TERM, 0, 1)
        return Value(f"{left.at(SIMPLE)} or {right.at(TERM)}", SIMPLE, 0, 1)

    def negation(self, depth: int) -> Value:
        return Value(f"not {self.ordinal('Boolean', 0, 1, depth).at(FACTOR)}", FACTOR, 0, 1)

    def odd(self, depth: int) -> Value:
        return Value(f"odd({self.integer(depth).text})", FACTOR, 0, 1)

    def at_end(self, _: int) -> Value:
        """A call of `eof`."""
        return Value(self.draw.choice(("eof", "eof(input)")), FACTOR, 0, 1)

    def set_host(self) -> str:
        """The host type of the members of a set."""
        hosts = [type.host for type in self.hosts.values()]
        return self.draw.choice(hosts + [type.base.host for type in self.of(SetOf)])

    def members(self, host: str) -> Tuple[int, int]:
        """The range of the members that are drawn."""
        type = self.hosts[host]
        return max(type.low, 0), min(type.high, 255)

    def membership(self, depth: int) -> Optional[Value]:
        """A test whether a number is in a set."""
        host = self.set_host()
        low, high = (-20, 300) if host == "integer" else self.members(host)
        value, members = self.ordinal(host, low, high, depth), self.set_value(host, depth)
        if members.text == "[]":
            return None  # Free Pascal takes this to be a constant
        # and takes a constant to be of the set's base, and finds no relation's value in a range
        outside = value.bare or value.low == value.high or value.binding == RELATION
        value = self.hosted(value._replace(bare=outside), host)
        return self.relation(value, "in", members)

    def inclusion(self, depth: int) -> Value:
        """A comparison of two sets."""
        host = self.set_host()
        return self.relation(
            self.set_value(host, depth), self.draw.choice(("=", "<>", "<=", ">=")), self.set_value(host, depth)
        )

    def set_value(self, host: str, depth: int) -> Value:
        """A set over a host type."""
        if depth > 0 and self.chance(0.6):
            left, right = (self.set_value(host, depth - 1) for _ in range(2))
            sign = self.draw.choice("+-*")
            if sign == "*":
                return Value(f"{left.at(TERM)} * {right.at(FACTOR)}", TERM, left.low, left.high)
            low, high = (min(left.low, right.low), max(left.high, right.high)) if sign == "+" else (left.low, left.high)
            return Value(f"{left.at(SIMPLE)} {sign} {right.at(TERM)}", SIMPLE, low, high)
        if self.chance(0.6):
            found = self.access(lambda type: isinstance(type, SetOf) and type.base.host == host)
            if found:
                return Value(found.text, FACTOR, found.type.base.low, found.type.base.high)
        return self.constructor(host, *self.members(host))

    def constructor(self, host: str, low: int, high: int) -> Value:
        """A set constructor with members within the bounds."""
        ends = [
            [self.member(host, low, high) for _ in range(self.draw.choice((1, 1, 2)))]
            for _ in range(self.draw.randint(0, 3))
        ]
        # Free Pascal refuses constant members that overlap, and some constructors with a range and other members
        fixed = [pair for pair in ends if all(map(self.is_constant, pair))]
        mixed = [pair for pair in ends if pair not in fixed]
        ranges = [pair for pair in mixed if len(pair) == 2]
        kept = ranges[:1] or [pair for pair in fixed[:1] if not mixed or len(pair) == 1] + mixed
        self.draw.shuffle(kept)
        return Value(f"[{', '.join('..'.join(pair) for pair in kept)}]", FACTOR, low, high)

    def member(self, host: str, low: int, high: int) -> str:
        """Free Pascal takes members of other types than the first to be in conflict."""
        value = self.ordinal(host, low, high, 1)
        plain = value.text.isalnum() or host != "integer" and "(" not in value.text
        return self.hosted(value if plain else value._replace(bare=True), host).text

    def is_constant(self, text: str) -> bool:
        """Whether an expression consists only of constants."""
        steady = (
            {name for name, _ in self.constants}
            | {name for names in self.enumerations.values() for name in names}
            | CONSTANT_WORDS
        )
        return all(word[0] == "'" or word.isdigit() or word in steady for word in re.findall("'[^']*'|[a-z0-9]+", text))

    def set_within(self, base: Ordinal, depth: int = 2) -> Value:
        """A set whose members lie in a base."""
        value = self.set_value(base.host, depth)
        if base.low <= value.low and value.high <= base.high:
            return value
        return Value(
            f"{value.at(TERM)} * [{self.literal(base.host, base.low)}..{self.literal(base.host, base.high)}]",
            TERM,
            base.low,
            base.high,
        )

    def string_value(self, length: int) -> Value:
        found = self.access(lambda type: isinstance(type, Array) and type.is_string() and type.index.high == length)
        return Value(found.text if found and self.chance(0.7) else self.string(length), FACTOR)

    def string_comparison(self, _: int) -> Optional[Value]:
        found = self.access(lambda type: isinstance(type, Array) and type.is_string())
        if not found:
            return None
        right = self.string_value(found.type.index.high)
        return self.relation(Value(found.text, FACTOR), self.draw.choice(RELATIONS), right)

    def pointer_comparison(self, _: int) -> Optional[Value]:
        found = self.access(lambda type: isinstance(type, Pointer))
        return (
            found
            and self.relation(Value(found.text, FACTOR), self.draw.choice(("=", "<>")), self.pointer_value(found.type))
        )

    def pointer_value(self, type: Pointer) -> Value:
        found = self.access(lambda held: held is type)
        return Value(found.text if found and self.chance(0.7) else "nil", FACTOR)

    def value_of(self, type: PascalType) -> Optional[Value]:
        """A value that can be assigned to a type, or None."""
        if isinstance(type, Ordinal):
            return self.ordinal(type.host, type.low, type.high)
        if isinstance(type, SetOf):
            return self.set_within(type.base)
        if isinstance(type, Pointer):
            return self.pointer_value(type)
        if isinstance(type, Array) and type.is_string():
            return self.string_value(type.index.high)
        found = self.access(lambda held: held is type)
        return found and Value(found.text, FACTOR)

    def callable(self) -> Iterator[Any]:
        """The routines that may be called here, or passed."""
        pure = self.blocks[-1].pure
        for block in self.blocks:
            for routine in block.routines:
                if routine.complete and (pure is None or routine.pure or routine.home >= pure):
                    yield routine

    def call(self, fits: Callable[..., Any]) -> Optional[Value]:
        """A call of a routine that fits, or None."""
        routines = [routine for routine in self.callable() if fits(routine)]
        higher = [
            routine for routine in routines if any(section.kind == "routine" for section in routine.signature.sections)
        ]
        routine = routines and self.draw.choice(higher if higher and self.chance(0.4) else routines)
        if not routine or self.inner > 1 or not self.spend(routine.cost):
            return None
        text = self.call_text(routine, str(self.draw.randint(0, DEPTH)))
        result = routine.signature.result
        bounds = (result.low, result.high, result.name != result.host) if isinstance(result, Ordinal) else ()
        return text and Value(text, FACTOR, *bounds)

    def call_text(self, routine: Routine, depth: str) -> Optional[str]:
        """The text of a call of a routine, or None if there is nothing to pass to it."""
        actuals = [depth] if routine.group else []
        for section in routine.signature.sections:
            for _ in range(section.count):
                actual = self.inside(lambda: self.actual(section))
                if not actual:
                    return None
                actuals.append(actual)
        return f"{routine.name}({', '.join(actuals)})" if actuals else routine.name

    def actual(self, section: Section) -> Any:
        """What is passed for a section of parameters."""
        if section.kind == "routine":
            congruous = [
                routine for routine in self.callable() if routine.signature is section.type and not routine.group
            ]
            cheap = [routine.name for routine in congruous if routine.cost <= 4 * FORMAL_COST]
            return cheap and (cheap[-1] if self.chance(0.5) else self.draw.choice(cheap))
        if section.kind == "value":
            value = self.value_of(section.type)
            return value and value.text
        # Free Pascal takes no component of a packed variable, however deep
        found = self.access(
            lambda type: type is section.type, lambda variable: self.is_writable(variable) and not variable.packed
        )
        return found and found.text

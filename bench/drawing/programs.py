"""Draws programs of the language with their inputs, whose meaning the standard leaves in no doubt.

Each program ends: its loops are bounded, and a routine that can call itself, or be called by one that it calls, first
decreases a parameter of its own. It meets no error: expressions are drawn with the bounds of their values, and `mod`, a
set's product or a test brings them into the range that their place needs; variables are assigned before they are used,
and pointers are tested before `^`. The order of evaluation does not matter: if a statement calls a function that
changes anything, nothing else that it evaluates can change.

What Free Pascal 3.2.2 refuses, or treats differently from the standard, is left out, and a comment says so at its
place.
"""

from __future__ import annotations

from random import Random
from typing import Any, Callable, List, Optional, Tuple

from .statements import Statements
from .types import (
    DEPTH, LIMIT, NAMES, SIMPLE, Block, Ordinal, PascalType, Pointer, Record, Routine, Section, SetOf, Signature,
    Value, Variable, compound, indented, sequence,
)  # fmt: skip


class Programs(Statements):
    """Whole programs."""

    def formals(self, signature: Signature, names: List[str]) -> Any:
        """The text of a list of formal parameters, and what it defines."""
        sections, variables, routines = [], {}, []
        level = self.blocks[-1].level
        for section in signature.sections:
            drawn = [names.pop() for _ in range(section.count)]
            if section.kind == "routine":
                name = self.fresh("p")
                sections.append(self.heading(name, section.type))
                routines.append(Routine(name, section.type, level))
                continue
            sections.append(f"{'var ' if section.kind == 'var' else ''}{', '.join(drawn)}: {section.type.name}")
            variables.update({name: Variable(name, section.type, level) for name in drawn})
        return sections, variables, routines

    def heading(
        self, name: str, signature: Signature, sections: Optional[List[str]] = None, depth: Optional[str] = None
    ) -> str:
        if sections is None:
            sections, _, _ = self.formals(signature, self.draw.sample(NAMES, len(NAMES)))
        sections = ([f"{depth}: depth"] if depth else []) + sections
        formals = f"({'; '.join(sections)})" if sections else ""
        result = f": {signature.result.name}" if signature.result else ""
        return f"{'function' if signature.result else 'procedure'} {name}{formals}{result}"

    def signature(self, second_order: bool) -> Signature:
        """The parameters and the result of a routine; with routines as parameters, if it is of second order."""
        draw = self.draw
        sections = []
        for _ in range(draw.randint(1 if second_order else 0, 3)):
            kind = draw.choice(("value", "var", "routine", "routine") if second_order else ("value", "value", "var"))
            if kind == "routine":
                sections.append(Section(kind, draw.choice(self.signatures)))
            else:
                sections.append(Section(kind, draw.choice(self.types), draw.randint(1, 2)))
        results = [type for type in self.of((Ordinal, Pointer)) if type.name != "depth"]
        return Signature(tuple(sections), draw.choice(results) if self.chance(0.5) else None)

    def routine(self, level: int) -> List[str]:
        """A routine of the block that is being drawn, or two that call each other."""
        block = self.blocks[-1]
        formals = [formal.signature for formal in block.routines if formal.formal]
        # such a routine can be passed on where its own block is called again
        like_formal = bool(formals) and self.chance(0.7)
        signature = self.draw.choice(formals if like_formal else self.signatures)
        if not like_formal and self.chance(0.4):
            signature = self.signature(self.chance(0.5))
        only_values = all(section.kind == "value" for section in signature.sections)
        pure = (
            not like_formal and block.pure is None and signature.result is not None and only_values and self.chance(0.6)
        )
        recursive = not pure and not like_formal and block.pure is None and self.chance(0.4)
        if not recursive:
            return self.whole_routine(Routine(self.fresh("p"), signature, block.level, pure), level)
        group = object()
        first = Routine(self.fresh("p"), signature, block.level, False, group)
        if self.chance(0.6):
            return self.whole_routine(first, level)
        second = Routine(self.fresh("p"), self.signature(False), block.level, False, group)
        return self.both_routines(first, second, level)

    def both_routines(self, first: Routine, second: Routine, level: int) -> List[str]:
        """Two routines that call each other, the first of them with a forward heading."""
        self.blocks[-1].routines += [first, second]
        parts = [self.parts(routine) for routine in (first, second)]
        ahead = [f"{parts[0][0]};", "forward;"]
        later = self.routine_block(second, parts[1], level)
        word = "function" if first.signature.result else "procedure"
        lines = ahead + later + self.routine_block(first, (f"{word} {first.name}", *parts[0][1:]), level)
        first.cost = second.cost = 2**DEPTH * (first.cost + second.cost)
        first.complete = second.complete = True
        return lines

    def whole_routine(self, routine: Routine, level: int) -> List[str]:
        """A routine with its block."""
        self.blocks[-1].routines.append(routine)
        lines = self.routine_block(routine, self.parts(routine), level)
        routine.cost *= 2**DEPTH if routine.group else 1
        routine.complete = True
        return lines

    def parts(self, routine: Routine) -> Tuple[Any, ...]:
        """The heading of a routine, and what it defines."""
        outer = self.blocks[-1]
        pure = outer.level + 1 if routine.pure else outer.pure
        block = Block(outer.level + 1, pure)
        names = self.draw.sample(NAMES, len(NAMES))
        depth = self.fresh("n") if routine.group else None
        self.blocks.append(block)
        sections, variables, block.routines = self.formals(routine.signature, names)
        self.blocks.pop()
        for formal in block.routines:
            formal.complete = formal.formal = True
        if depth:
            variables[depth] = Variable(depth, self.depth, block.level, False)
        return self.heading(routine.name, routine.signature, sections, depth), block, variables, names, depth

    def routine_block(self, routine: Routine, parts: Tuple[Any, ...], level: int) -> List[str]:
        """The heading and the block of a routine."""
        heading, block, variables, names, depth = parts
        result = routine.signature.result
        factor, self.factor = self.factor, 1
        self.blocks.append(block)
        self.scopes.append(variables)
        if depth:
            self.open.append((routine.group, depth))
        if result:
            self.results.append(Variable(routine.name, result, block.level))
        last = [lambda: [f"{routine.name} := {self.value_of(result).text}"]] if result else []
        lines = self.block(names, level, self.draw.randint(2, 4), last)
        if result:
            self.results.pop()
        if depth:
            self.open.pop()
        self.scopes.pop()
        self.blocks.pop()
        self.factor = factor
        routine.cost = 1 + block.cost
        return [f"{heading};", *indented(lines[:-1]), f"  {lines[-1]};"]

    def block(
        self,
        names: List[str],
        level: int,
        count: int,
        last: List[Callable[..., Any]],
        first: Callable[..., Any] = lambda: [],
    ) -> List[str]:
        """The parts of a block, whose innermost scope is complete but for its variables. `last` makes its last
        statements."""
        block = self.blocks[-1]
        types = [self.draw.choice(self.types) for _ in range(self.draw.randint(2, 4))]
        if block.level == 0:
            # so that each routine finds its actual parameters
            types += [type for type in self.types if type is not self.depth]
        variables = {
            name: Variable(name, type, block.level)
            for name, type in ((names.pop() if names else self.fresh("v"), type) for type in types)
        }
        self.scopes[-1].update(variables)
        routines = []
        few = (1, 1, 2) if block.routines else (0, 1, 1, 2)
        for _ in range(self.draw.choice(few) if 0 < block.level < level else 0):
            routines += self.routine(level)
        if block.level == 0:
            routines = self.global_routines(level)
        statements = [self.start(variable) for variable in variables.values()] + first()
        statements += [self.statement(3) for _ in range(count)]
        statements += self.calls() + [make() for make in last]
        if self.impure():
            statements += [[f"show{variable.type.name}({variable.text})"] for variable in self.scopes[-1].values()]
        declared = [f"{name}: {variable.type.name};" for name, variable in variables.items()]
        return ["var", *indented(declared + self.helpers()), *routines, *compound(statements)]

    def calls(self) -> List[List[str]]:
        """A call of each routine that the block has, so that few are drawn in vain."""
        statements = []
        for routine in self.blocks[-1].routines:
            result = routine.signature.result
            called = self.call(lambda held: held is routine) or self.call(lambda held: held is routine)
            if called and result is None:
                statements.append([called.text])
            elif called and self.impure():
                statements.append([f"show{result.name}({called.text})"])
        return statements

    def helpers(self) -> List[str]:
        """The declarations of the variables that the block needs for its loops and the like."""
        return [f"{name}: {type.name or type.denoter};" for name, type in self.blocks[-1].helpers]

    def start(self, variable: Variable) -> List[str]:
        """The first value of a variable, of which the standard says nothing."""
        if isinstance(variable.type, Ordinal):
            return [f"{variable.text} := {self.drawn_literal(variable.type)}"]
        return [f"fill{variable.type.name}({variable.text}, {self.draw.randint(0, 99)})"]

    def filled(self, text: str, type: PascalType, seed: str) -> List[List[str]]:
        """Statements that give a variable a value by a number."""
        if isinstance(type, Ordinal):
            number = Value(f"{seed} + {self.draw.randint(0, 99)}", SIMPLE, -LIMIT, 2 * LIMIT)
            within = self.fitting(number, type.low, type.high).text
            enumerated = {"integer": within, "char": f"chr({within})", "Boolean": f"odd({number.text})"}
            return [[f"{text} := {enumerated.get(type.host) or self.drawn_literal(type)}"]]
        if isinstance(type, SetOf):
            return [[f"{text} := [{self.drawn_literal(type.base)}]"]]
        if isinstance(type, Pointer):
            return [[f"{text} := nil"]]
        if isinstance(type, Record):
            return [lines for name, held in type.fields for lines in self.filled(f"{text}.{name}", held, seed)]
        return self.each(
            type.index, lambda name: self.filled(f"{text}[{name}]", type.component, f"{seed} + ord({name})")
        )

    def shown(self, text: str, type: PascalType) -> List[List[str]]:
        """Statements that write the value of a variable."""
        if isinstance(type, Ordinal):
            texts = {"integer": f"{text}:5", "char": text, "Boolean": f"{text}:6"}
            return [[f"write({texts.get(type.host) or f'ord({text}):3'})"]]
        if isinstance(type, SetOf):
            return self.each(
                type.base,
                lambda name: [[f"if {name} in {text} then", *indented(sequence(self.shown(name, type.base)))]],
            )
        if isinstance(type, Pointer):
            return [[f"write({text} = nil:6)"]]
        if isinstance(type, Record):
            return [lines for name, held in type.fields for lines in self.shown(f"{text}.{name}", held)]
        if type.is_string():
            return [[f"write({text}:{type.index.high + 1})"]]
        return self.each(type.index, lambda name: self.shown(f"{text}[{name}]", type.component))

    def each(self, type: Ordinal, statements: Callable[..., Any]) -> List[List[str]]:
        """A loop over the values of a type."""
        name = self.blocks[-1].helper("i", type)
        body = compound(statements(name))
        self.blocks[-1].busy.remove(name)
        way = f"{self.literal(type.host, type.low)} to {self.literal(type.host, type.high)}"
        if self.chance(0.2):
            way = f"{self.literal(type.host, type.high)} downto {self.literal(type.host, type.low)}"
        return [[f"for {name} := {way} do", *indented(body)]]

    def list_shown(self, type: Pointer) -> List[List[str]]:
        """The first nodes of a list."""
        count = self.blocks[-1].helper("k", self.hosts["integer"])
        body = [[f"{count} := {count} + 1"], *self.shown("x^", type.node), [f"x := x^.{type.node.fields[-1][0]}"]]
        return [
            [f"{count} := 0"],
            [f"while (x <> nil) and ({count} < 4) do", *indented(compound(body))],
            ["write(x = nil:6)"],
        ]

    def of_type(self, heading: str, statements: Callable[..., Any]) -> List[str]:
        """A routine that has no names of its own but those of its loops."""
        self.blocks.append(Block(1, None))
        lines = compound(statements())
        helpers = self.helpers()
        self.blocks.pop()
        return [f"{heading};", *(["var", *indented(helpers)] if helpers else []), *lines[:-1], f"{lines[-1]};"]

    def routines_of_types(self) -> List[str]:
        """The routines for each type, such as the functions that make a value one of the host type."""
        lines = [f"function host{host}(x: {host}): {host}; begin host{host} := x end;" for host in self.hosts]
        for type in self.types:
            if not isinstance(type, Ordinal):
                lines += self.of_type(
                    f"procedure fill{type.name}(var x: {type.name}; n: integer)", lambda: self.filled("x", type, "n")
                )
            shown = (lambda: self.list_shown(type)) if isinstance(type, Pointer) else (lambda: self.shown("x", type))
            lines += self.of_type(f"procedure show{type.name}(x: {type.name})", lambda: shown() + [["writeln"]])
        return lines

    def global_routines(self, level: int) -> List[str]:
        lines = self.routines_of_types()
        for _ in range(self.draw.randint(2, 5)):
            lines += self.routine(level)
        return lines


class Input:
    """The input of a program, which its first statements read by a plan."""

    def __init__(self, drawing: Programs) -> None:
        self.drawing, self.draw, self.text = drawing, drawing.draw, ""

    def number(self, type: Ordinal) -> None:
        """Adds a number of this type to the input."""
        number = self.draw.randint(type.low, type.high)
        blanks = "".join(self.draw.choice((" ", " ", "\n")) for _ in range(self.draw.randint(1, 3)))
        sign = "-" if number < 0 else self.draw.choice(("", "", "+"))
        self.text += f"{blanks}{sign}{'0' * self.draw.choice((0, 0, 2))}{abs(number)}"

    def character(self, _: Ordinal) -> None:
        """The next character does not continue a number."""
        self.text += self.draw.choice("aB -+'\n(~")

    def read(self) -> List[str]:
        """A statement that reads a few numbers and characters."""
        variables = []
        for _ in range(self.draw.randint(1, 3)):
            ways = ("integer", self.number), ("char", self.character)
            host, give = self.draw.choice(ways)
            found = self.drawing.readable(host)
            if found:
                give(found.type)
                variables.append(found.text)
        if variables and self.draw.random() < 0.7:
            return [f"read({', '.join(variables)})"]
        self.text += self.draw.choice(("", "abc", " 7 x", "+")) + "\n"
        return [f"readln({', '.join(variables)})"] if variables else ["readln"]

    def rest(self) -> None:
        """Lines that are read character by character. Free Pascal takes a last line without its end to end sooner."""
        self.text += "\n" if self.text else ""
        for _ in range(self.draw.randint(0, 4)):
            self.text += "".join(chr(self.draw.randint(32, 126)) for _ in range(self.draw.choice((0, 1, 5, 20)))) + "\n"


def copying(drawing: Programs) -> List[str]:
    """A statement that writes the rest of the input."""
    name = drawing.blocks[-1].helper("k", drawing.hosts["char"])
    inner = ["while not eoln do", *indented(compound([[f"read({name})"], [f"write({name})"]]))]
    return ["while not eof do", *indented(compound([inner, ["readln"], ["writeln('/')"]]))]


def drawn(draw: Random) -> Tuple[str, str]:
    """A program and its input, as texts."""
    drawing = Programs(draw)
    drawing.draw_types()
    drawing.constants = [(f"c{count}", draw.randint(-50, 50)) for count in range(1, draw.randint(2, 4))]
    drawing.signatures = []
    for second_order in (False, False, True):
        drawing.signatures.append(drawing.signature(second_order))
    given = Input(drawing)
    drawing.reads = draw.random() < 0.6
    drawing.blocks.append(Block(0, None))
    drawing.scopes.append({})
    first = (lambda: [given.read() for _ in range(draw.randint(1, 4))]) if drawing.reads else (lambda: [])
    last = [lambda: copying(drawing)] if drawing.reads else []
    block = drawing.block(draw.sample(NAMES, len(NAMES)), 3, draw.randint(5, 9), last, first)
    constants = [f"{name} = {number};" for name, number in drawing.constants]
    types = [f"{type.name} = {type.denoter};" for type in drawing.types if type.denoter]
    # Free Pascal is made to evaluate both operands of and and or, and not to pack bits where that is not needed
    told = "{$B+}" if drawing.pairs else "{$B+} {$BITPACKING OFF}"
    lines = [told, "program p(input, output);", "const", *indented(constants), "type", *indented(types), *block]
    if drawing.reads:
        given.rest()
    return "\n".join(lines) + ".\n", given.text

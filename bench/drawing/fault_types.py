"""The ways to break a rule of types, statements, routines and programs: refusals 34 to 45."""

from __future__ import annotations

from typing import Any

from .fault_blocks import DEEPEST, Block, Drawing, way


@way(34)
def a_condition(draw: Drawing, block: Block) -> None:
    draw.add(
        block,
        draw.choice(
            "if @gi + 1 then gj := 1",
            "while @gc do gj := 1",
            "repeat gj := 1 until @ge",
            "if @fn(1) then",
            "while @gr.one do gi := 1",
        ),
    )


@way(34)
def an_operand_of_a_wrong_type(draw: Drawing, block: Block) -> None:
    draw.use(
        block,
        draw.choice(
            "1 + @gc", "@gc + 1", "@gb * 2", "2 div @'a'", "gi * (gj + @ge)", "(1 + @ga) * 2", "(-@gc)", "gi mod @gp"
        ),
    )


@way(34)
def an_operand_of_a_condition(draw: Drawing, block: Block) -> None:
    operand = draw.choice("gb and @gi", "@gi or gb", "not @gi", "not @gc", "(gi < 1) and @ga[1]")
    draw.add(block, draw.choice("gb := {}", "if {} then gi := 1", "while {} do gi := 1").format(operand))


@way(34)
def an_index(draw: Drawing, block: Block) -> None:
    draw.add(block, draw.choice("ga[@gc] := 1", "ga[@gb] := 1", "gl[@ge] := 'a'", "gi := ga[@gc]"))


@way(34)
def a_structured_result(draw: Drawing, block: Block) -> None:
    draw.declare_behind(
        block.routines, f"function {(f := draw.fresh())}(n: integer): @{draw.choice('row', 'node', 'some')}; begin end"
    )


@way(34)
def an_index_type(draw: Drawing, block: Block) -> None:
    routine = draw.block(f"procedure {draw.fresh()}", DEEPEST)
    routine.types[:] = [
        draw.choice(
            f"{draw.fresh()} = array [@row] of char",
            f"{draw.fresh()} = array [small, @node] of char",
            f"{draw.fresh()} = set of @row",
        )
    ]
    draw.declare_behind(block.routines, routine)


@way(35)
def an_assignment(draw: Drawing, block: Block) -> None:
    ways = ("gi @:= gc", "gc @:= gi + 1", "gb @:= gi", "ga[gi] @:= 'a'", "gr.two @:= 1", "ge @:= 1", "gp^.one @:= gb",
            "gs @:= ['a']", "gl @:= 'abc'")
    draw.add(block, draw.choice(*ways))


@way(35)
def a_value_parameter(draw: Drawing, block: Block) -> None:
    draw.add(
        block, draw.choice("pv(@gc)", "pv(@'a')", "pt(1, @2 + gi)", "pt(@gb, 'a')", "gi := fn(@ge)", "pt(gi, @gi)")
    )


@way(36)
def a_subrange_type(draw: Drawing, block: Block) -> None:
    name = draw.fresh()
    bounds = draw.choice("@5..2", "@0..-1", "@'z'..'a'", "@1..-1")
    draw.declare(block.types, f"{name} = {bounds}")


@way(36)
def a_subrange_of_constants(draw: Drawing, block: Block) -> None:
    routine = draw.block(f"procedure {draw.fresh()}", DEEPEST)
    routine.types[:] = [f"{draw.fresh()} = {draw.choice('@three..1', '@blue..red', '@true..false', '@maxint..1')}"]
    draw.declare_behind(block.routines, routine)


@way(36)
def an_index_range(draw: Drawing, block: Block) -> None:
    ways = "array [@9..1] of char", "array [1..3, @2..1] of integer", "set of @3..1", "record f: @2..1 end"
    draw.declare(block.variables, f"{draw.fresh()}: {draw.choice(*ways)}")


@way(37)
def a_base(draw: Drawing, block: Block) -> None:
    base = draw.choice("integer", "0..256", "-1..5", "200..300")
    draw.declare(block.types, f"{draw.fresh()} = {draw.choice('', 'packed ')}@set of {base}")


@way(37)
def a_base_of_a_variable(draw: Drawing, block: Block) -> None:
    draw.declare(
        block.variables,
        f"{draw.fresh()}: {draw.choice('array [1..2] of @set of integer', 'record f: @set of 1..256 end', '@set of integer')}",
    )


@way(38)
def case_constants(draw: Drawing, block: Block) -> None:
    ways = [
        "case gi of 1: gj := 1; 2, @1: gj := 2 end",
        "case gi of 1, @1: gj := 1 end",
        "case gc of 'a': gi := 1; cross: ; @'x': end",
    ]
    ways += [
        "case gi of 3: ; 4: gj := 2; @three: gi := 1 end",
        "case ge of red, green: ; blue, @red: gi := 1 end",
        "case gb of true: ; false, @true: end",
    ]
    ways += ["case gi of 1: case gj of 1: ; @1: end; 2: end", "case gi of -3: ; 1: ; @-three: end"]
    draw.add(block, draw.draw.choice(ways))


def loop(draw: Drawing, block: Block, body: str, control: Any = None) -> None:
    draw.add(
        block, f"for {control or block.control} := {draw.choice('1 to 3', '3 downto 1', 'gi to gi + 2')} do {body}"
    )


@way(39)
def an_assignment_in_the_loop(draw: Drawing, block: Block) -> None:
    loop(draw, block, draw.around(f"@{block.control} := {draw.number()}"))


@way(39)
def a_variable_parameter_in_the_loop(draw: Drawing, block: Block) -> None:
    loop(draw, block, draw.around(draw.choice(f"pr(@{block.control})", f"begin gi := 2; pr(@{block.control}) end")))


@way(39)
def a_read_in_the_loop(draw: Drawing, block: Block) -> None:
    loop(
        draw,
        block,
        draw.around(
            draw.choice(
                f"read(@{block.control})", f"readln(gi, @{block.control})", f"read(input, gj, @{block.control})"
            )
        ),
    )


@way(39)
def a_loop_in_the_loop(draw: Drawing, block: Block) -> None:
    loop(draw, block, draw.around(f"for @{block.control} := 1 to 2 do gi := 1"))


def variable_function(draw: Drawing) -> str:
    """A function of the program with a variable parameter, and its name."""
    name = draw.fresh("f")
    draw.program.routines.insert(0, f"function {name}(var n: integer; m: integer): integer; begin {name} := n + m end")
    return name


@way(39)
def a_function_in_the_loop(draw: Drawing, block: Block) -> None:
    name, control = variable_function(draw), block.control
    ways = (
        f"gi := {name}(@{control}, 1)",
        f"gi := fn({control}) + fn(2 * {name}(@{control}, {control}))",
        f"gi := {name}(gj, {control}) + {name}(@{control}, 1)",
    )
    loop(draw, block, draw.around(draw.draw.choice(ways)))


@way(39)
def a_routine_of_the_block(draw: Drawing, block: Block) -> None:
    body = draw.choice("@{} := 3", "pr(@{})", "read(@{})", "for gi2 := 1 to 2 do begin @{} := 3 end").format(
        block.control
    )
    declared = " var gi2: integer;" if "gi2" in body else ""
    draw.declare_behind(block.routines, f"procedure {draw.fresh()};{declared} begin {body} end")
    loop(draw, block, "gi := 1")
    block.loop += "!"


@way(39)
def a_routine_beside_another(draw: Drawing, block: Block) -> None:
    block.routines.insert(0, f"procedure {draw.fresh()}; var {block.control}: integer; begin {block.control} := 1 end")
    block.routines.append(f"procedure {draw.fresh()}; begin gi := {block.control}; @{block.control} := 1 end")
    loop(draw, block, "gi := 1")
    block.loop += "!"


@way(39)
def a_variable_of_another_block(draw: Drawing, block: Block) -> None:
    draw.declare_behind(
        block.routines,
        f"procedure {draw.fresh()}; var a: char; begin for @{draw.choice('gi', block.control)} := 1 to 2 do gj := 1 "
        "end",
    )


@way(39)
def a_formal_parameter(draw: Drawing, block: Block) -> None:
    draw.declare_behind(
        block.routines,
        f"procedure {draw.fresh()}({draw.choice('', 'var ')}a: integer); begin for @a := 1 to 2 do gj := 1 end",
    )


@way(40)
def a_component(draw: Drawing, block: Block) -> None:
    draw.add(block, draw.choice("pc(@gl[1])", "pc(@gt.left)", "pc(@gl[gi])"))


@way(40)
def a_component_in_with(draw: Drawing, block: Block) -> None:
    draw.add(block, "with gt do pc(@left)")


@way(41)
def too_many(draw: Drawing, block: Block) -> None:
    draw.add(
        block,
        draw.choice(
            "@pv(1, 2)", "@pv", "@pt(1)", "@pr(gi, gj)", "@hp", "gi := @fn(1, 2)", "gi := 2 * @fn", "@pt(gi, 'a', gj)"
        ),
    )


@way(41)
def lists(draw: Drawing, block: Block) -> None:
    draw.add(block, draw.choice("hp(@pr)", "hp(@pt)", "hf(@fz)", "hp(@pz)"))
    draw.program.routines.insert(0, "function fz(n: integer): char; begin fz := 'a' end")
    draw.program.routines.insert(0, "procedure pz; begin end")


@way(42)
def a_procedure_heading(draw: Drawing, block: Block) -> None:
    draw.declare(block.routines, f"procedure @{draw.fresh()}{draw.choice('', '(n: integer)')}; forward")
    block.routines_end += "!"


@way(42)
def a_function_heading(draw: Drawing, block: Block) -> None:
    draw.declare(block.routines, f"function @{draw.fresh()}{draw.choice('', '(var n: char)')}: integer; forward")
    block.routines_end += "!"


@way(42)
def a_heading_between_others(draw: Drawing, block: Block) -> None:
    name, other = draw.fresh(), draw.fresh()
    draw.declare(
        block.routines,
        f"procedure {other}; forward",
        f"procedure @{name}; forward",
        f"procedure {other}; begin {name} end",
    )
    block.routines_end += "!"


@way(43)
def a_function_of_nothing(draw: Drawing, block: Block) -> None:
    draw.declare(
        block.routines,
        f"function @{draw.fresh()}{draw.choice('', '(n: integer)')}: integer; begin {draw.choice('', 'gj := 1')} !end",
    )


@way(43)
def a_forward_function(draw: Drawing, block: Block) -> None:
    name = draw.fresh()
    draw.declare_behind(
        block.routines, f"function {name}(n: integer): char; forward", f"function @{name}; begin gi := n !end"
    )


@way(43)
def a_function_that_another_hides(draw: Drawing, block: Block) -> None:
    name = draw.fresh()
    draw.declare_behind(
        block.routines,
        f"function @{name}: integer; var a: char; procedure q; var {name}: integer; begin {name} := 1 end; begin q "
        "!end",
    )


@way(44)
def no_output(draw: Drawing, block: Block) -> None:
    draw.parameters, draw.writes = draw.choice("input", ""), False
    draw.reads = draw.parameters == "input"
    draw.add(
        block, draw.choice("@writeln", "@write(1)", "@writeln(gi: 3)", "write(@output, 'abc')", "writeln(@output)")
    )


@way(44)
def no_input(draw: Drawing, block: Block) -> None:
    draw.parameters, draw.reads = draw.choice("output", ""), False
    draw.writes = draw.parameters == "output"
    draw.add(
        block,
        draw.choice(
            "@read(gi)",
            "@readln",
            "gb := @eof",
            "while not @eoln do gi := 1",
            "read(@input, gi)",
            "gb := eof(@input)",
            "readln(@input)",
        ),
    )


@way(45)
def a_long_type(draw: Drawing, block: Block) -> None:
    draw.declare(
        block.types,
        draw.choice(
            f"@{draw.fresh()} = array [1..100001] of char", f"@{draw.fresh()} = array [1..400, 1..400] of Boolean"
        ),
    )


@way(45)
def a_long_part(draw: Drawing, block: Block) -> None:
    ways = (
        "@array [1..100001] of char",
        "record f: @array [1..200000] of integer end",
        "@packed array [char, 1..1000] of char",
    )
    draw.declare(block.variables, f"{draw.fresh()}: {draw.choice(*ways)}")


@way(45)
def many_variables(draw: Drawing, block: Block) -> None:
    draw.declare(block.routines, f"procedure @{draw.fresh()}; var a, b: array [1..60000] of char; begin !end")


@way(45)
def many_parameters(draw: Drawing, block: Block) -> None:
    draw.declare(
        block.routines, f"procedure @{draw.fresh()}({', '.join(f'q{k}' for k in range(33))}: integer); begin end"
    )


@way(45)
def nested(draw: Drawing, block: Block) -> None:
    names = [draw.fresh() for _ in range(16 - block.depth)]
    heads = "; ".join(f"procedure {'@' if name == names[-1] else ''}{name}" for name in names)
    draw.declare(block.routines, f"{heads}; {'begin end; ' * len(names)}".rstrip("; "))

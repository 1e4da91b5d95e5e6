"""The ways to break a rule of names: refusals 30 to 33."""

from __future__ import annotations

from .fault_blocks import DEEPEST, Block, Drawing, way


@way(30)
def an_operand(draw: Drawing, block: Block) -> None:
    draw.use(block, f"@{draw.fresh('u')}")


@way(30)
def a_target(draw: Drawing, block: Block) -> None:
    draw.add(block, f"@{draw.fresh('u')} := {draw.number()}")


@way(30)
def a_procedure(draw: Drawing, block: Block) -> None:
    draw.add(block, f"@{draw.fresh('u')}{draw.choice('', '(1)')}")


@way(30)
def a_field(draw: Drawing, block: Block) -> None:
    draw.add(block, f"gr.@{draw.fresh('u')} := 1")


@way(30)
def a_type(draw: Drawing, block: Block) -> None:
    draw.declare(
        block.variables,
        f"{draw.fresh()}: {draw.choice('@{}', 'array [1..3] of @{}', 'record f: @{} end').format(draw.fresh('u'))}",
    )


@way(30)
def a_domain(draw: Drawing, block: Block) -> None:
    draw.declare(block.types, f"{draw.fresh()} = ^ @{draw.fresh('u')}")
    block.types_end += "!"


@way(30)
def a_constant(draw: Drawing, block: Block) -> None:
    draw.declare(block.constants, f"{draw.fresh()} = {draw.choice('', '-')}@{draw.fresh('u')}")


@way(30)
def a_function_without_heading(draw: Drawing, block: Block) -> None:
    draw.declare(block.routines, f"function @{draw.fresh('u')}; begin end")


@way(30)
def a_parameter_type(draw: Drawing, block: Block) -> None:
    draw.declare(block.routines, f"procedure {draw.fresh()}(a: integer; b: @{draw.fresh('u')}); begin end")


@way(31)
def variables(draw: Drawing, block: Block) -> None:
    name = draw.fresh()
    draw.declare(block.variables, f"{name}: integer", f"{draw.fresh()}, @{name}: char")


@way(31)
def variables_of_one_list(draw: Drawing, block: Block) -> None:
    name = draw.fresh()
    draw.declare(block.variables, f"{name}, {draw.fresh()}, @{name}: integer")


@way(31)
def constants(draw: Drawing, block: Block) -> None:
    name = draw.fresh()
    draw.declare(block.constants, f"{name} = 1", f"@{name} = 2")


@way(31)
def types(draw: Drawing, block: Block) -> None:
    name = draw.fresh()
    draw.declare_behind(block.types, f"{name} = char", f"@{name} = small")


@way(31)
def a_constant_and_a_variable(draw: Drawing, block: Block) -> None:
    name = draw.fresh()
    draw.declare(block.constants, f"{name} = 1")
    draw.declare(block.variables, f"@{name}: char")


@way(31)
def fields(draw: Drawing, block: Block) -> None:
    name = draw.fresh()
    draw.declare(block.types, f"{draw.fresh()} = record {name}: integer; {draw.fresh()}, @{name}: char end")


@way(31)
def inner_fields(draw: Drawing, block: Block) -> None:
    name = draw.fresh()
    draw.declare(
        block.variables, f"{draw.fresh()}: record {name}: array [1..2] of record {name}, @{name}: char end end"
    )


@way(31)
def constants_of_an_enumeration(draw: Drawing, block: Block) -> None:
    name = draw.fresh()
    draw.declare(block.types, f"{draw.fresh()} = ({name}, {draw.fresh()}, @{name})")


@way(31)
def a_type_and_its_constant(draw: Drawing, block: Block) -> None:
    name = draw.fresh()
    draw.declare(block.types, f"{name} = ({draw.fresh()}, @{name})")


@way(31)
def a_variable_and_its_constant(draw: Drawing, block: Block) -> None:
    name = draw.fresh()
    draw.declare(block.variables, f"{name}: ({draw.fresh()}, @{name})")


@way(31)
def a_constant_in_a_record(draw: Drawing, block: Block) -> None:
    name = draw.fresh()
    draw.declare(
        block.types, f"{draw.fresh()} = record {draw.fresh()}: ({name}) end", f"{draw.fresh()} = set of (@{name})"
    )


@way(31)
def formal_parameters(draw: Drawing, block: Block) -> None:
    name = draw.fresh()
    draw.declare(
        block.routines, f"procedure {draw.fresh()}({name}: integer; {draw.choice('', 'var ')}@{name}: char); begin end"
    )


@way(31)
def formal_parameters_of_a_formal(draw: Drawing, block: Block) -> None:
    name = draw.fresh()
    draw.declare(
        block.routines, f"procedure {draw.fresh()}({name}: integer; procedure q({name}, @{name}: char)); begin end"
    )


@way(31)
def a_formal_parameter_and_a_variable(draw: Drawing, block: Block) -> None:
    name = draw.fresh()
    draw.declare(
        block.routines,
        f"function {(f := draw.fresh())}({name}: integer): integer; var @{name}: char; begin {f} := 1 end",
    )


@way(31)
def a_formal_parameter_of_a_forward_heading(draw: Drawing, block: Block) -> None:
    name, p = draw.fresh(), draw.fresh()
    draw.declare(
        block.routines, f"procedure {p}({name}: integer); forward", f"procedure {p}; var @{name}: char; begin end"
    )


@way(31)
def a_routine_and_a_variable(draw: Drawing, block: Block) -> None:
    name = draw.fresh()
    draw.declare(block.variables, f"{name}: integer")
    draw.declare(block.routines, f"procedure @{name}{draw.choice('', '(n: integer)')}; begin end")


@way(31)
def a_block_and_a_variable(draw: Drawing, block: Block) -> None:
    name = draw.fresh()
    draw.declare(block.variables, f"{name}: integer")
    draw.declare(block.routines, f"function @{name}; begin end")


@way(31)
def routines(draw: Drawing, block: Block) -> None:
    name = draw.fresh()
    draw.declare(
        block.routines, f"procedure {name}; begin end", f"procedure @{name}{draw.choice('', '(n: integer)')}; begin end"
    )


@way(31)
def blocks_of_a_forward_heading(draw: Drawing, block: Block) -> None:
    name = draw.fresh()
    draw.declare(
        block.routines, f"procedure {name}; forward", f"procedure {name}; begin end", f"procedure @{name}; begin end"
    )


@way(31)
def forward_headings(draw: Drawing, block: Block) -> None:
    name = draw.fresh()
    draw.declare(
        block.routines, f"procedure {name}; forward", f"procedure @{name}; forward", f"procedure {name}; begin end"
    )


@way(31)
def a_block_of_another_kind(draw: Drawing, block: Block) -> None:
    name = draw.fresh()
    draw.declare(block.routines, f"procedure {name}; forward", f"function @{name}; begin {name} := 1 end")


@way(31)
def a_list_that_is_repeated(draw: Drawing, block: Block) -> None:
    name = draw.fresh()
    draw.declare(block.routines, f"procedure {name}(n: integer); forward", f"procedure @{name}(n: integer); begin end")


@way(31)
def files(draw: Drawing, block: Block) -> None:
    draw.parameters = "input, output, @output"


@way(32)
def a_later_type(draw: Drawing, block: Block) -> None:
    name = draw.fresh()
    draw.declare(
        block.types,
        f"{draw.fresh()} = {draw.choice('array [1..3] of ', '', 'set of ')}@{name}",
        f"{name} = {draw.choice('char', '1..5')}",
    )


@way(32)
def a_later_constant(draw: Drawing, block: Block) -> None:
    name = draw.fresh()
    draw.declare(block.constants, f"{draw.fresh()} = @{name}", f"{name} = 5")


@way(32)
def its_own_type(draw: Drawing, block: Block) -> None:
    name = draw.fresh()
    holder = draw.choice("record f: @{} end", "array [1..3] of @{}", "record f: integer; g: array [char] of @{} end")
    draw.declare(block.types, f"{name} = {holder.format(name)}")


@way(32)
def its_own_constant(draw: Drawing, block: Block) -> None:
    name = draw.fresh()
    draw.declare(block.constants, f"{name} = @{name}")


@way(32)
def a_type_that_is_hidden_later(draw: Drawing, block: Block) -> None:
    routine = draw.block(f"procedure {draw.fresh()}", DEEPEST)
    routine.types[:] = [f"{draw.fresh()} = array [1..3] of @small", "small = char"]
    draw.declare_behind(block.routines, routine)


@way(32)
def a_constant_that_is_hidden_later(draw: Drawing, block: Block) -> None:
    routine = draw.block(f"procedure {draw.fresh()}", DEEPEST)
    routine.constants[:] = [f"{draw.fresh()} = @three", "three = 4"]
    draw.declare_behind(block.routines, routine)


@way(32)
def a_later_formal_parameter(draw: Drawing, block: Block) -> None:
    draw.declare_behind(block.routines, f"procedure {draw.fresh()}(a: @small; small: char); begin end")


@way(32)
def a_later_constant_as_a_domain(draw: Drawing, block: Block) -> None:
    name = draw.fresh()
    draw.declare(block.types, f"{draw.fresh()} = ^ @{name}", f"{draw.fresh()} = ({draw.fresh()}, {name})")
    block.types_end += "!"


@way(33)
def its_own_heading(draw: Drawing, block: Block) -> None:
    name = draw.fresh()
    heading = draw.choice(
        f"function {name}(a: @{name}): integer",
        f"function {name}: @{name}",
        f"procedure {name}(procedure q(a: @{name}))",
    )
    draw.declare(block.routines, f"{heading}; begin {'' if heading.startswith('procedure') else f'{name} := 1'} end")


@way(32)
def a_block_before_its_heading(draw: Drawing, block: Block) -> None:
    name = draw.fresh()
    draw.declare(
        block.routines, f"function @{name}; begin {name} := 1 end", f"function {name}: integer; begin {name} := 1 end"
    )


@way(33)
def an_earlier_constant_as_a_domain(draw: Drawing, block: Block) -> None:
    name = draw.fresh()
    draw.declare(block.types, f"{draw.fresh()} = ({draw.fresh()}, {name})", f"{draw.fresh()} = ^ @{name}")
    block.types_end += "!"


@way(33)
def its_own_variable(draw: Drawing, block: Block) -> None:
    name = draw.fresh()
    draw.declare(block.variables, f"{draw.fresh()}, {name}: {draw.choice('', '^ ', 'array [1..2] of ')}@{name}")


@way(33)
def its_own_field(draw: Drawing, block: Block) -> None:
    name = draw.fresh()
    draw.declare(
        block.types, f"{draw.fresh()} = record {name}: integer; {draw.fresh()}: {draw.choice('', '^ ')}@{name} end"
    )


@way(33)
def a_procedure_for_a_value(draw: Drawing, block: Block) -> None:
    draw.use(block, "@pv")


@way(33)
def a_type_for_a_value(draw: Drawing, block: Block) -> None:
    draw.use(block, draw.choice("@small", "@integer", "@node"))


@way(33)
def a_constant_for_a_variable(draw: Drawing, block: Block) -> None:
    draw.add(block, draw.choice("@three := 3", "@red := green", "read(@three)", "pr(@three)"))


@way(33)
def a_variable_for_a_type(draw: Drawing, block: Block) -> None:
    draw.declare_behind(
        block.variables,
        f"{(name := draw.fresh())}: integer",
        f"{draw.fresh()}: {draw.choice('', 'array [1..2] of ')}@{name}",
    )


@way(33)
def a_variable_for_a_constant(draw: Drawing, block: Block) -> None:
    routine = draw.block(f"procedure {draw.fresh()}", DEEPEST)
    routine.constants[:] = [f"{draw.fresh()} = @gi"]
    draw.declare_behind(block.routines, routine)


@way(33)
def a_variable_for_a_procedure(draw: Drawing, block: Block) -> None:
    draw.add(block, draw.choice("@gi", "@gi(1)", "@small", "@three(gi, 2)"))


@way(33)
def a_value_for_a_variable(draw: Drawing, block: Block) -> None:
    draw.add(block, draw.choice("pr(@1)", "pr(@gi + 1)", "pr(@(gi))", "pc(@'a')", "pr(@fn(1))"))


@way(33)
def a_function_of_another_block(draw: Drawing, block: Block) -> None:
    draw.add(block, "@fn := 1")

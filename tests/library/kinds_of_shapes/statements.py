"""Shapes of texts: statements, many or in one another."""

from kinds_of_shapes.form import (
    DEPTH, MOST_CELLS, MOST_PARAMETERS, filled, many, names, nested, numbered, program, shape,
)

many("statements_for", "`for` statements", "program p; var i:integer; begin ", "for i:=1 to 2 do;", " end.\n")
many(
    "statements_for_routines", "`for` statements of routines", "program p; ",
    "procedure a#;var i:char;begin for i:='a' to 'b' do end;", " begin end.\n",
)
many(
    "statements_for_downto", "`for` statements with computed ends", "program p; var i,n:integer; begin ",
    "for i:=n+1 downto n*n do n:=i;", " end.\n",
)
many("statements_if", "`if` statements", "program p; var y:boolean; begin ", "if y then;", " end.\n")
many(
    "statements_if_else", "`if` statements with `else`", "program p; var y:boolean; begin ",
    "if y then y:=y else y:=y;", " end.\n",
)
many("statements_while", "`while` statements", "program p; var y:boolean; begin ", "while y do;", " end.\n")
many("statements_repeat", "`repeat` statements", "program p; var y:boolean; begin ", "repeat until y;", " end.\n")
many(
    "statements_with", "`with` statements", "program p; type r=record x:integer end; var a:r; begin ",
    "with a do x:=1;", " end.\n",
)
many("statements_case", "`case` statements", "program p; var y:integer; begin ", "case y of 1:end;", " end.\n")
many("statements_begin", "compound statements", "program p; begin ", "begin end;", " end.\n")
many(
    "case_constants", "constants of one `case` element", "program p; var y:integer; begin case y of ", "#",
    ":end end.\n", ",",
)
many(
    "case_elements", "elements of one `case` statement", "program p; var y:integer; begin case y of ", "#:",
    " end end.\n", ";",
)
many(
    "case_statements", "elements with statements", "program p; var y:integer; begin case y of ", "#:y:=#",
    " end end.\n", ";",
)
many(
    "case_shuffled", "`case` constants in no order", "program p; var y:integer; begin case y of ",
    lambda k: str(k * 7919 % 1_000_003), ":end end.\n", ",",
)
many(
    "case_falling", "`case` constants that fall", "program p; var y:integer; begin case y of ",
    lambda k: str(2_000_000 - k), ":end end.\n", ",",
)
many(
    "case_wide", "`case` constants far apart", "program p; var y:integer; begin case y of ",
    lambda k: str(k * 1_000_003 % 2_147_483_647), ":end end.\n", ",",
)
many(
    "case_names", "`case` constants of an enumeration", f"program p; type t=({names('a', 1000)});var y:t; begin ",
    f"case y of {names('a', 1000)}:end;", " end.\n",
)
many(
    "case_twice_last", "`case` constants of which the last is there twice",
    "program p; var y:integer; begin case y of ", "#", ",1:end end.\n", ",",
)
def within_for(length: int, ending: str, statement: str, variables: str, last: str = "", routines: str = "") -> str:
    """Statements within as many `for` statements as may be."""
    opened = "".join(f"for v{k}:=1 to {ending} do " for k in range(DEPTH))
    head = f"program p; var {variables}{names('v', DEPTH)}:integer;{routines} begin {opened}begin "
    return filled(head, statement, f"{last} end end.\n", length)


@shape(is_deep=True)
def for_deep(length: int) -> str:
    """Assignments within as many `for` statements as may be."""
    return within_for(length, "2", "y:=1;", "y:integer;")


@shape(is_deep=True)
def for_deep_branches(length: int) -> str:
    """Conditions within as many `for` statements with computed ends as may be."""
    return within_for(length, "n", "if y then;", "n:integer;y:boolean;")


@shape(is_deep=True)
def for_deep_sum(length: int) -> str:
    """A long sum within as many `for` statements as may be, and a call behind it."""
    return within_for(length, "2", "y:=y" + "+y" * 1000 + ";", "y:integer;", "q", "procedure q;begin end;")


@shape(is_deep=True)
def for_deep_read(length: int) -> str:
    """Variables that are read within as many `for` statements as may be."""
    opened = "".join(f"for v{k}:=1 to 2 do " for k in range(DEPTH))
    head = f"program p(input); var y:integer;{names('v', DEPTH)}:integer; begin {opened}begin read(y"
    return filled(head, ",y", ") end end.\n", length)


@shape(is_deep=True)
def for_deep_passed(length: int) -> str:
    """Variables that are passed within as many `for` statements as may be."""
    routine = f"procedure q(var {names('a', MOST_PARAMETERS)}:integer);begin end;"
    return within_for(length, "2", f"q({','.join('y' * MOST_PARAMETERS)});", "y:integer;", routines=routine)


@shape(is_deep=True)
def for_deep_threatened(length: int) -> str:
    """The same, with an assignment to the outmost control variable at the end."""
    return within_for(length, "2", "y:=1;", "y:integer;", "v0:=1")


@shape(is_deep=True)
def for_deep_calls(length: int) -> str:
    """Calls with variables within as many `for` statements as may be."""
    return within_for(length, "2", "q(y,y);", "y:integer;", routines="procedure q(var a,b:integer);begin end;")


@shape()
def for_rising(length: int) -> str:
    """`for` statements of variables of their own."""
    count = min(MOST_CELLS, (length - 100) // 29)
    return program(f"var {names('v', count)}:integer;", "".join(f"for v{k}:=1 to 2 do;" for k in range(count)))


@shape()
def for_behind_names(length: int) -> str:
    """Routines with `for` statements behind one of many variables."""
    head = f"program p; procedure q; var {names('v', max(1, min(20_000, length // 20)))}:integer; begin end; "
    return filled(head, numbered("procedure a#;var i:char;begin for i:='a' to 'b' do end;"), " begin end.\n", length)


@shape()
def for_threats(length: int) -> str:
    """`for` statements behind routines that assign to other variables of the block."""
    count = min(MOST_CELLS, (length - 100) // 70)
    routines = "".join(f"procedure q{k};begin w{k}:=1 end;" for k in range(count))
    variables = f"var {names('w', count)}:integer;{names('v', count)}:integer;"
    return program(variables + routines, "".join(f"for v{k}:=1 to 2 do;" for k in range(count)))


nested(
    "while_deep", "`while` statements in one another", "program p; var y:boolean; begin ", "while y do ", "", "",
    " end.\n",
)
nested(
    "if_deep", "`if` statements in one another", "program p; var y:boolean; begin ", "if y then ", "", "", " end.\n"
)
nested(
    "else_deep", "`else` branches in one another", "program p; var y:boolean; begin ", "if y then else ", "", "",
    " end.\n",
)
nested(
    "then_else_deep", "`if` statements with `else` in one another", "program p; var y:boolean; begin ", "if y then ",
    "", " else y:=y", " end.\n",
)
nested(
    "repeat_deep", "`repeat` statements in one another", "program p; var y:boolean; begin ", "repeat ", "",
    "until y ", " end.\n",
)
nested(
    "case_deep", "`case` statements in one another", "program p; var y:integer; begin ", "case y of 1:", "", "end ",
    " end.\n",
)
nested("begin_deep", "compound statements in one another", "program p; begin ", "begin ", "", "end ", " end.\n")
nested(
    "with_deep_each", "`with` statements in one another", "program p; var a:record x:integer end; begin ",
    "with a do ", "x:=1", "", " end.\n",
)


def within_deep(length: int, declared: str, opened: str, statement: str, closed: str, depth: int = DEPTH) -> str:
    """Statements within as many others as may be."""
    head, tail = f"program p; {declared} begin {opened * depth}begin ", f" end {closed * depth}end.\n"
    return filled(head, statement, tail, length)


@shape(is_deep=True)
def while_deep_body(length: int) -> str:
    """Assignments within as many `while` statements as may be."""
    return within_deep(length, "var y:boolean;x:integer;", "while y do ", "x:=1;", "")


@shape(is_deep=True)
def if_deep_body(length: int) -> str:
    """Calls within as many `if` statements as may be."""
    return within_deep(length, "var y:boolean;procedure q;begin end;", "if y then ", "q;", "")


@shape(is_deep=True)
def repeat_deep_body(length: int) -> str:
    """Conditions within as many `repeat` statements as may be."""
    return within_deep(length, "var y:boolean;", "repeat ", "if y then;", "until y ")


@shape(is_deep=True)
def case_deep_body(length: int) -> str:
    """Assignments within as many `case` statements as may be."""
    return within_deep(length, "var y:integer;", "case y of 1:", "y:=1;", "end ")

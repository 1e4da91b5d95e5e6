"""Shapes of texts of whose runs `why`, `trace` and their like, and `list --source`, have much to show."""

from kinds_of_shapes.form import MOST_CELLS, filled, names, numbered, shape


@shape()
def stored_in_the_last_field(length: int) -> str:
    """Stores to the last field of a record whose fields fill half of the text."""
    head = filled("program p;var v:record ", numbered("a#"), ",z:char end;begin with v do begin ", length // 2, ",")
    return filled(head, "z:='a';", "end end.\n", length)


@shape()
def fields_behind_constants(length: int) -> str:
    """Variables of a record type whose first field has an enumeration as type that fills half of the text."""
    rest = ");b,c,d,e,f,g,h,i,j,k,l:char end;begin v0:=v1 end.\n"
    tail = filled(":record a:(", numbered("e#"), rest, length // 2, ",")
    return filled("program p;var ", numbered("v#"), tail, length, ",", 8_000)


@shape()
def run_of_long_program_name(length: int) -> str:
    """Statements of a program whose name fills half of the text."""
    return filled(f"program {'x' * (length // 2)};var y:integer;begin ", "y:=1;", "end.\n", length)


@shape()
def shown_behind_program_name(length: int) -> str:
    """Variables of a program whose name fills half of the text."""
    head = f"program {'x' * (length // 2)};var "
    return filled(head, numbered("v#"), ":char;begin v0:='a' end.\n", length, ",", MOST_CELLS)


@shape()
def run_of_long_routine_name(length: int) -> str:
    """Statements of a procedure whose name fills a third of the text."""
    name = "x" * (length // 3)
    return filled(f"program p;var y:integer;procedure {name};begin ", "y:=1;", f"end;begin {name} end.\n", length)


@shape()
def called_by_a_long_name(length: int) -> str:
    """A procedure that calls itself, whose name fills a third of the text."""
    name = "x" * ((length - 60) // 3)
    return f"program p;procedure {name};begin {name} end;begin {name} end.\n"


@shape()
def passed_by_a_long_name(length: int) -> str:
    """A procedure that calls itself, with a parameter whose name fills the text."""
    return f"program p;procedure q({'x' * (length - 80)}:char);begin q('a') end;begin q('a') end.\n"


@shape()
def stored_by_a_long_name(length: int) -> str:
    """Stores to a field within `with`, where the record's name fills a third of the text."""
    name = "x" * (length // 3)
    head = f"program p;var {name}:record a:char end;begin with {name} do begin "
    return filled(head, "a:='a';", "end end.\n", length)


@shape()
def stored_long_constant(length: int) -> str:
    """Assignments of a constant whose name fills half of the text."""
    head = f"program p;type t=({'x' * (length // 2)},b);var v,w:t;begin w:=pred(b);"
    return filled(head, "v:=w;", "end.\n", length)


@shape()
def shown_long_constant(length: int) -> str:
    """Variables whose first value is a constant the name of which fills half of the text."""
    head = f"program p;type t=({'x' * (length // 2)},b);var "
    return filled(head, numbered("v#"), ":t;begin v0:=b;v0:=v1 end.\n", length, ",", MOST_CELLS)


@shape()
def shown_of_a_long_type(length: int) -> str:
    """Variables of one type without a name, an enumeration with a constant whose name fills half of the text."""
    tail = f":(a,{'x' * (length // 2)});begin v0:=a end.\n"
    return filled("program p;var ", numbered("v#"), tail, length, ",", MOST_CELLS)


@shape()
def stored_long_field(length: int) -> str:
    """Assignments of records with a field whose name fills half of the text."""
    head = f"program p;var v,w:record {'x' * (length // 2)}:char end;begin "
    return filled(head, "v:=w;", "end.\n", length)


@shape()
def run_of_long_statement(length: int) -> str:
    """A statement that is executed often, with a comment that fills the text."""
    return f"program p;var y,z:integer;begin for y:=1 to 10000 do z:=y{{{'x' * (length - 80)}}}+1 end.\n"


@shape()
def stored_deep_within_records(length: int) -> str:
    """Stores to a field of records of twelve fields in one another, within more records than are searched."""
    fields = names("f", 12)
    types = f"a=record {fields}:char end;b=record {fields}:a end;c=record {fields}:b end"
    within = f"{'record f:' * 100}c{' end' * 100}"
    head = f"program p;type {types};var v:{within};begin with v{'.f' * 100}.f0.f0 do begin "
    return filled(head, "f0:='a';", "end end.\n", length)


@shape()
def called_within_loops(length: int) -> str:
    """Nine hundred calls open within 400 `while` statements each, at the end of the steps."""
    loops = "while y=0 do " * 400
    head = (
        "program p;var y:integer;procedure r;begin y:=0 end;"
        f"procedure q(n:integer);begin {loops}if n=0 then while y=0 do r else q(n-1) end;begin q(900);"
    )
    return filled(head, "while y=1 do y:=2;", "end.\n", length)

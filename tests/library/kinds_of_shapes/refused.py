"""Shapes of texts that are refused, with the fault at the end."""

from kinds_of_shapes.declarations import wide_record
from kinds_of_shapes.form import DEPTH, MOST_CELLS, Part, filled, many, numbered, shape
from kinds_of_shapes.routines import within_levels
from kinds_of_shapes.statements import for_deep_read
from kinds_of_shapes.with_statements import narrow_types

BEHIND = "program p; var y:integer; begin "
many("unknown_last", "an unknown name behind assignments", BEHIND, "y:=1;", "z:=1 end.\n")
many("unknown_all", "unknown names", BEHIND, "z#:=1;", " end.\n")
many(
    "unknown_behind_variables", "an unknown name behind variables", "program p; var ", "a#",
    ":integer; begin z:=1 end.\n", ",", MOST_CELLS,
)
many(
    "unknown_behind_routines", "an unknown name behind routines", "program p; ", "procedure a#(x:char);begin end;",
    "begin z:=1 end.\n",
)
many(
    "unknown_behind_records", "an unknown name behind records", "program p; type ", "a#=record x:integer end;",
    " begin z:=1 end.\n",
)
many(
    "unknown_type_last", "an unknown type behind variables", "program p; var ", "a#:integer;", "z:q; begin end.\n",
    most=MOST_CELLS,
)
many(
    "unknown_field_last", "an unknown field behind assignments", "program p; var y:record x:integer end; begin ",
    "y.x:=1;", "y.z:=1 end.\n",
)
many(
    "twice_last", "a name that is there twice behind variables", "program p; var ", "a#", ",a0:integer; begin end.\n",
    ",", MOST_CELLS,
)
many(
    "twice_field_last", "a field that is there twice", "program p; var r:record ", "a#",
    ",a0:integer end; begin end.\n", ",", MOST_CELLS,
)
many(
    "twice_enumeration_last", "a constant of an enumeration that is there twice", "program p; type t=(", "a#",
    ",a0); begin end.\n", ",",
)
many(
    "twice_routine_last", "a routine that is there twice", "program p; ", "procedure a#;begin end;",
    "procedure a0;begin end;begin end.\n",
)
many(
    "kind_last", "a type as a statement behind assignments", "program p; type t=char;var y:integer; begin ", "y:=1;",
    "t:=1 end.\n",
)
many("type_last", "a wrong operand behind assignments", BEHIND, "y:=1;", "y:=y+'a' end.\n")
many("assignment_last", "a wrong assignment behind assignments", BEHIND, "y:=1;", "y:='a' end.\n")
many(
    "early_last", "a type used before it is there, behind types", "program p; type ", "a#=char;",
    "z=array[q]of char;q=1..2; begin end.\n",
)
many(
    "control_last", "a threatened control variable behind assignments",
    "program p; var y,i:integer; begin for i:=1 to 2 do begin ", "y:=1;", "i:=1 end end.\n",
)
many(
    "control_calls_last", "the same behind calls",
    "program p; var y,i:integer;procedure q(var a,b:integer);begin end; begin for i:=1 to 2 do begin ", "q(y,y);",
    "i:=1 end end.\n",
)
many(
    "control_routine_last", "a control variable threatened by the last of many routines",
    "program p; var y,i:integer;", "procedure q#;begin y:=1 end;",
    "procedure z;begin i:=1 end; begin for i:=1 to 2 do end.\n",
)
many(
    "control_foreign_last", "a control variable of another block", "program p; var i:integer;",
    "procedure q#;begin end;", "procedure z;begin for i:=1 to 2 do end; begin end.\n",
)
many(
    "packed_last", "a packed variable as a parameter behind calls",
    "program p; var a:packed array[1..2]of char;c:char;procedure q(var b:char);begin end; begin ", "q(c);",
    "q(a[1]) end.\n",
)
many(
    "count_last", "a wrong number of parameters behind calls", "program p; procedure q(b:char);begin end; begin ",
    "q('a');", "q end.\n",
)
many(
    "deep_last", "an expression that is too deep behind assignments", BEHIND, "y:=1;",
    "y:=" + "-(" * 600 + "1" + ")" * 600 + " end.\n", is_deep=True,
)
many("syntax_last", "no program, behind assignments", BEHIND, "y:=1;", "y:= end.\n")
many("syntax_end", "no end, behind assignments", BEHIND, "y:=1;", "")
many("profile_last", "a real number behind assignments", BEHIND, "y:=1;", "y:=1.5 end.\n")
many("output_last", "a write without output behind assignments", BEHIND, "y:=1;", "write(1) end.\n")
many(
    "result_last", "a function without its result behind others", "program p; ",
    "function a#:char;begin a#:='a' end;", "function z:char; begin end; begin end.\n",
)
many(
    "levels_last", "routines that are too deep behind others", "program p; ", "procedure a#;begin end;",
    "".join(f"procedure z{k};" for k in range(16)) + "begin end;" * 16 + "begin end.\n",
)


# the text behind each of several faults is checked again, in some 190,000 bytes: dearest below 64 KB
OFTEN_CHECKED = 32_768
# all faults of a text so short are looked for
SHORT_ENOUGH = 4_096
FAULTS = "".join(f"zz{letter}:=1;" for letter in "abcdefghijklmnopqrstuvwxy")


@shape()
def faults_behind_records(length: int) -> str:
    """25 faults behind a `with` list of records of 64 fields."""
    head = f"program p; var {narrow_types(1)}; begin with "
    return filled(head, "a,", f"a do a0:='a';{FAULTS} end.\n", min(length, OFTEN_CHECKED))


@shape(is_deep=True)
def faults_behind_read(length: int) -> str:
    """25 faults behind variables that are read within as many `for` statements as may be."""
    text = for_deep_read(min(length, OFTEN_CHECKED) - len(FAULTS))
    return text.replace(") end end.", f") end;{FAULTS} end.")


@shape()
def faults_near_names(length: int) -> str:
    """25 unknown names of 60 letters behind names that differ from them in few."""
    tail = "".join("x" * 58 + f"{letter}z:=1;" for letter in "abcdefghijklmnopqrstuvwxy") + " end.\n"
    shorter = min(length, OFTEN_CHECKED)
    return filled("program p; var ", lambda k: "x" * 55 + f"{k:05d}", ":integer; begin " + tail, shorter, ",")


@shape(is_deep=True)
def faults_of_grammar(length: int) -> str:
    """25 missing semicolons within many open statements: what may stand there is looked for at each."""
    head, opened, closed, lines = "program p; var y:integer; begin ", "if y=1 then begin ", " end", "y:=1\n" * 25
    room = min(length, SHORT_ENOUGH) - len(head) - len(lines) - len(" end.\n")
    levels = min(DEPTH // 2, room // len(opened + closed))
    return head + opened * levels + "\n" + lines + closed * levels + " end.\n"


@shape()
def unknown_levels(length: int) -> str:
    """An unknown name 15 levels deep behind assignments."""
    return within_levels(length, "procedure a#;", "x:=1;", tail="z:=1")


@shape()
def unknown_levels_uses(length: int) -> str:
    """An unknown name in the inmost of routines with long names."""
    heading = "procedure a#" + "x" * max(1, length // 40) + ";"
    return within_levels(length, heading, "x:=1;", tail="z:=1")


@shape()
def unknown_with_fields(length: int) -> str:
    """An unknown name in a `with` behind names of fields."""
    return filled(f"program p; var r:{wide_record(1000)}; begin with r do begin ", "a7:=1;", "z:=1 end end.\n", length)


def of_long_owner(length: int, declared: str, part: Part, tail: str, between: str = "", most: int = 10**9) -> str:
    """Parts within a procedure whose name is half of the text."""
    return filled(f"program p; procedure {'x' * (length // 2)};{declared}", part, tail, length, between, most)


@shape()
def owner_long(length: int) -> str:
    """Variables of a procedure whose name is half of the text."""
    return of_long_owner(length, "var ", numbered("a#"), ":integer;begin end;begin end.\n", ",", MOST_CELLS)


@shape()
def owner_long_unknown(length: int) -> str:
    """The same, and an unknown name."""
    return of_long_owner(length, "var ", numbered("a#"), ":integer;begin end;begin z:=1 end.\n", ",", MOST_CELLS)


@shape()
def owner_long_twice(length: int) -> str:
    """The same, and a name that is there twice."""
    return of_long_owner(length, "var ", numbered("a#"), ",a0:integer;begin end;begin end.\n", ",", MOST_CELLS)


@shape()
def owner_long_uses_unknown(length: int) -> str:
    """Assignments in a procedure whose name is half of the text, and an unknown name."""
    return of_long_owner(length, "var y:integer;begin ", "y:=1;", "end;begin z:=1 end.\n")


@shape()
def owner_long_forward_open(length: int) -> str:
    """Procedures in one whose name is half of the text, and a heading without its block."""
    return of_long_owner(length, "", numbered("procedure a#;begin end;"), "procedure z;forward;begin end;begin end.\n")


@shape()
def owner_long_kind(length: int) -> str:
    """Assignments in such a procedure, and a type as a statement."""
    return of_long_owner(length, "type t=char;var y:integer;begin ", "y:=1;", "t:=1 end;begin end.\n")


@shape()
def owner_long_control(length: int) -> str:
    """Assignments in such a procedure, and a threatened control variable."""
    return of_long_owner(length, "var y,i:integer;begin for i:=1 to 2 do begin ", "y:=1;", "i:=1 end end;begin end.\n")


@shape(is_deep=True)
def too_deep(length: int) -> str:
    """As many compound statements in one another as there is room for."""
    return filled("program p; ", "begin ", "end.\n", length)


@shape(is_deep=True)
def too_deep_parentheses(length: int) -> str:
    """As many parentheses in one another as there is room for."""
    return filled("program p; var y:integer; begin y:=", "(", "y end.\n", length)


@shape(is_deep=True)
def too_deep_brackets(length: int) -> str:
    """As many indices in one another as there is room for."""
    return filled("program p; var a:array[1..2]of integer; begin a[1]:=", "a[", "1 end.\n", length)


@shape(is_deep=True)
def too_deep_types(length: int) -> str:
    """As many arrays of one another as there is room for."""
    return filled("program p; var a:", "array[1..1]of ", "char; begin end.\n", length)


@shape(is_deep=True)
def too_deep_routines(length: int) -> str:
    """As many routines in one another as there is room for."""
    return filled("program p; ", numbered("procedure a#;"), "begin end.\n", length)

"""Shapes of texts: procedures and functions, parameters and calls."""

import re
import string
from collections import deque
from collections.abc import Iterable

from kinds_of_shapes.declarations import wide_record
from kinds_of_shapes.form import MOST_LEVELS, MOST_PARAMETERS, filled, many, names, numbered, program, shape
from kinds_of_shapes.with_statements import narrow_types

many("procedures", "procedures", "program p; ", "procedure a#;begin end;", "begin end.\n")
many("functions", "functions", "program p; ", "function a#:char;begin a#:='a' end;", "begin end.\n")
many(
    "procedures_local", "procedures with a variable", "program p; ", "procedure a#;var x:integer;begin x:=1 end;",
    "begin end.\n",
)
many(
    "parameters", "procedures of as many parameters as may be", "program p; ",
    "procedure p#(" + names("a", MOST_PARAMETERS) + ":char);begin end;", "begin end.\n",
)
many("forward_open", "headings without blocks", "program p; ", "procedure a#;forward;", "begin end.\n")


def forwards(length: int, last: str) -> str:
    """Headings, a last one, and their blocks."""
    count = (length - 80) // 48
    headings = "".join(f"procedure a{k};forward;" for k in range(count))
    blocks = "".join(f"procedure a{k};begin end;" for k in range(count))
    return f"program p; {headings}{last}{blocks}begin end.\n"


@shape()
def forwards_whole(length: int) -> str:
    """Forward headings and then their blocks."""
    return forwards(length - length // 6, "")


@shape()
def forward_open_last(length: int) -> str:
    """The same, and one heading without its block."""
    return forwards(length - length // 6, "procedure z;forward;")


@shape()
def forwards_backwards(length: int) -> str:
    """Forward headings and their blocks in turned order."""
    count = (length - length // 6) // 48
    blocks = "".join(f"procedure a{k};begin end;" for k in reversed(range(count)))
    return f"program p; {''.join(f'procedure a{k};forward;' for k in range(count))}{blocks}begin end.\n"


def within_levels(length: int, heading: str, statement: str, declared: str = "var x:integer;", tail: str = "") -> str:
    """Statements of the inmost of routines that lie as deep as may be."""
    head = "program p; " + declared + "".join(numbered(heading)(k) for k in range(MOST_LEVELS)) + "begin "
    return filled(head, statement, f"{tail} end;" + "begin end;" * (MOST_LEVELS - 1) + "begin end.\n", length)


@shape()
def levels_outer(length: int) -> str:
    """Uses of a variable 15 levels further out."""
    return within_levels(length, "procedure a#;", "x:=1;")


@shape()
def levels_called(length: int) -> str:
    """Calls of a procedure 15 levels further out."""
    return within_levels(length, "procedure a#;", "a0;")


@shape()
def levels_values(length: int) -> str:
    """Sums of variables of 15 levels."""
    return within_levels(length, "procedure a#;var v#:integer;", "x:=" + names("v", MOST_LEVELS, "+") + ";")


@shape()
def levels_passed(length: int) -> str:
    """Routines of an outer level as parameters."""
    return within_levels(length, "procedure a#;", "q(a0);", "procedure q(procedure a);begin end;")


@shape()
def levels_routines(length: int) -> str:
    """Routines on the inmost of 15 levels."""
    head = "program p; " + "".join(f"procedure a{k};" for k in range(MOST_LEVELS - 1))
    return filled(head, numbered("procedure b#;begin end;"), "begin end;" * (MOST_LEVELS - 1) + "begin end.\n", length)


# as long as the code of texts whose uses are dear just fits into an image
FITS_HOPS, FITS_SETS, FITS_FIRSTS, FITS_ARRAYS, FITS_SUMS, FITS_LOOPS = 130_000, 40_000, 36_000, 13_800, 86_000, 64_000
FITS_FAR, FITS_LIST, FITS_FAR_SUMS = 54_200, 62_000, 59_700


def levels_hops(length: int, declared: str, statement: str, head: str = "program p; ") -> str:
    """Statements of the inmost of 15 routines that use what the outermost one declares."""
    routines = f"procedure a0;{declared}" + "".join(f"procedure a{k};" for k in range(1, MOST_LEVELS))
    return filled(
        f"{head}{routines}begin ", statement, " end;" + "begin end;" * (MOST_LEVELS - 1) + "begin end.\n", length
    )


@shape()
def levels_hops_sums(length: int) -> str:
    """Sums of a variable 14 levels further out, each use of which goes over 14 static links, in as much code as fits."""
    return levels_hops(min(length, FITS_HOPS), "var v:integer;", "v:=v" + "+v" * 100 + ";")


@shape()
def levels_hops_indices(length: int) -> str:
    """The same of indices."""
    declared = f"type t=1..1;var v:integer;a:array[{','.join('t' * 90)}]of integer;"
    return levels_hops(min(length, FITS_HOPS), declared, f"v:=a[{','.join('v' * 90)}];")


@shape()
def levels_hops_sets(length: int) -> str:
    """The same of sets as values."""
    declared = f"var s:t;procedure q({names('x', MOST_PARAMETERS)}:t);begin end;"
    calls = f"q({','.join('s' * MOST_PARAMETERS)});"
    return levels_hops(min(length, FITS_SETS), declared, calls, "program p; type t=set of 1..2; ")


@shape()
def local_wide_many(length: int) -> str:
    """Routines with 12 variables of a record of 64 fields with different first values, in as much code as may be."""
    head = f"program p; type r={wide_record(64)}; "
    routine = numbered(f"procedure a#;var {','.join('bcdefghijklm')}:r;begin end;")
    return filled(head, routine, " begin end.\n", min(length, FITS_FIRSTS))


@shape()
def local_arrays_many(length: int) -> str:
    """The same of a record of 64 arrays, in just more code than may be: it is emitted twice before it is refused."""
    fields = ";".join(f"f{k}:array[1..20]of {k}..99" for k in range(64))
    routine = numbered(f"procedure a#;var {','.join('bcdefghijklm')}:r;begin end;")
    return filled(f"program p; type r=record {fields} end; ", routine, " begin end.\n", min(length, FITS_ARRAYS))


@shape()
def set_values_sums(length: int) -> str:
    """Calls with 32 sums of sets as values, in as much code as may be."""
    head = f"program p; type t=set of 100..140; var s:set of 0..255; procedure q({names('a', 32)}:t);begin end; begin "
    return filled(head, f"q({','.join(['s+s'] * MOST_PARAMETERS)});", " end.\n", min(length, FITS_SUMS))


# how many `while` statements are in one another in `loops_far`, and a sum within them
FAR_LOOPS = 470
FAR_SUM = f"v:=v{'+v' * 4000};"


def looped(depth: int, statements: str) -> str:
    """Statements within `while` statements in one another, in a record that is used behind them."""
    return f"begin with p^ do {'while y do ' * depth}begin {statements}x:=x end end"


@shape(is_deep=True)
def loops_sums(length: int) -> str:
    """The same within 12 `while` statements in one another, in a record that is used behind the calls: each loop takes
    one walk more until it is known what is alive."""
    declared = "type r=record x:char end; t=set of 100..140; var y:boolean;p:^r;s:set of 0..255;"
    before, behind = looped(12, "|").split("|")
    head = f"program p; {declared}procedure q({names('a', 32)}:t);begin end; {before}"
    calls = f"q({','.join(['s+s'] * MOST_PARAMETERS)});"
    return filled(head, calls, f"{behind}.\n", min(length, FITS_LOOPS))


@shape(is_deep=True)
def loops_far(length: int) -> str:
    """Routines with a sum of 4,000 uses of a variable seven levels further out within 470 `while` statements."""
    head = "program p; type r=record x:integer end; var y:boolean;p:^r;procedure a0;var v:integer;"
    outer = "".join(f"procedure a{k};" for k in range(1, 7))
    body = looped(FAR_LOOPS, FAR_SUM)
    return filled(head + outer, lambda k: f"procedure z{k};{body};", "begin end;" * 7 + "begin end.\n", length)


def and_sets(declared: str, routine: str, length: int) -> str:
    """A routine, and behind it calls with 32 sets of 14 levels further out, within 12 `while` statements."""
    head = f"program p; type t=set of 1..2; r=record x:integer end; var {declared}y:boolean;p:^r;"
    head += f"procedure a0;var s:t;v:integer;procedure q({names('x', MOST_PARAMETERS)}:t);begin end;"
    head += "".join(f"procedure a{k};" for k in range(1, MOST_LEVELS - 1)) + routine
    before, behind = looped(12, "|").split("|")
    call = f"q({','.join('s' * MOST_PARAMETERS)});"
    return filled(head + before, call, f"{behind};{'begin end;' * (MOST_LEVELS - 2)}begin end.\n", length)


@shape(is_deep=True)
def loops_far_and_sets(length: int) -> str:
    """One such routine, and behind it much code for sets, in as much code as may be."""
    return and_sets("", f"procedure z;{looped(FAR_LOOPS, FAR_SUM)};", min(length, FITS_FAR))


@shape(is_deep=True)
def with_list_and_sets(length: int) -> str:
    """A list of up to 12,000 records, and behind it much code for sets, in as much code as may be."""
    records = "a,b," * min(6_000, length // 11)
    return and_sets(f"{narrow_types(2)};", f"procedure w;begin with {records}b do a0:='a' end;", min(length, FITS_LIST))


@shape(is_deep=True)
def set_sums_far_in_loops(length: int) -> str:
    """Calls that pass sums of a set that is declared 14 levels further out, within `while`s in one another, in as much
    code as may be."""
    call = f"q({','.join(['s+s'] * MOST_PARAMETERS)});"
    levels = MOST_LEVELS - 1
    begun = (
        f"program p;type t=set of 100..140;r=record z:char end;var y:boolean;u:^r;procedure b0;var s:set of 0..255;"
        f"procedure q({names('a', MOST_PARAMETERS)}:t);begin end;{''.join(f'procedure b{k};' for k in range(1, levels))}"
        f"begin with u^ do {'while y do ' * 12}begin "
    )
    ended = f"z:=z end end;{'begin end;' * (levels - 1)}begin end.\n"
    return filled(begun, call, ended, min(length, FITS_FAR_SUMS))


@shape()
def bounds_compared(length: int) -> str:
    """Loops, each with 500 sums of a variable and numbers and 450 comparisons of what they are assigned to with another
    variable, and so much code for sets that many are passed over."""
    sums = "".join(f"a:=c+{10 + k % 90};" for k in range(500))
    body = "".join(f"if c={k} then;" for k in range(3)) + sums + "if a=b then;" * 450 + "b:=c;c:=d;d:=e;e:=f;f:=f+1"
    begun = "f:=1;b:=2;c:=1;d:=1;e:=1;"
    loop = f"procedure z#;var a,b,c,d,e,f:integer;begin {begun}while f<9 do begin {body} end end;"
    calls = f"q({','.join('s' * MOST_PARAMETERS)});" * 60
    routines = "".join(f"procedure a{k};" for k in range(1, MOST_LEVELS - 1))
    far = f"procedure a0;var s:t;procedure q({names('x', MOST_PARAMETERS)}:t);begin end;{routines}begin {calls}end;"
    tail = far + "begin end;" * (MOST_LEVELS - 2) + "begin end.\n"
    return filled("program p; type t=set of 1..2; ", numbered(loop), tail, length)


@shape()
def levels_results(length: int) -> str:
    """Results of the inmost of 15 functions."""
    head = "program p; " + "".join(f"function a{k}:integer;" for k in range(MOST_LEVELS)) + "begin "
    assigned = "".join(f"a{k}:=1;" for k in range(MOST_LEVELS))
    return filled(head, "a14:=2;", assigned + " end;" + "begin end;" * (MOST_LEVELS - 1) + "begin end.\n", length)


@shape()
def levels_towers(length: int) -> str:
    """Towers of routines that lie 15 deep."""
    tower = "".join(f"procedure a{k};" for k in range(MOST_LEVELS)) + "begin end;" * MOST_LEVELS
    return filled("program p; ", lambda k: tower.replace("a0;", f"b{k};", 1), "begin end.\n", length)


@shape(is_deep=True)
def formals_deep(length: int) -> str:
    """Formal parameters within one another as deep as may be."""
    depth = 496
    formals = "(procedure a" * depth + "(x:char)" + ")" * depth
    return filled("program p; ", lambda k: f"procedure q{k}{formals};begin end;", "begin end.\n", length)


def formal_list(room: int) -> str:
    """A list of formal procedures with lists of their own, each of 32, about as long as there is room for."""
    children: list[list] = []
    waiting, taken = deque([children]), 2
    while waiting and taken < room:
        parent = waiting.popleft()
        for _ in range(MOST_PARAMETERS):
            taken += 15 if parent else 17
            if taken > room:
                break
            parent.append([])
            waiting.append(parent[-1])
    return written_list(children)


def written_list(children: list) -> str:
    """The text of such a list."""
    formals = (f"procedure b{k}{written_list(child) if child else ''}" for k, child in enumerate(children))
    return "(" + ";".join(formals) + ")"


@shape()
def formals_wide(length: int) -> str:
    """One list of formal procedures with lists of their own."""
    return program(f"procedure q{formal_list(length - 60)};begin end;", "")


def congruous(length: int, share: int) -> str:
    """Calls that pass a procedure whose list is this share of the text."""
    formals = formal_list(length // share)
    head = f"program p; procedure q(procedure a{formals});begin end; procedure r{formals};begin end; begin "
    return filled(head, "q(r);", " end.\n", length)


@shape()
def congruity_quarter(length: int) -> str:
    """Calls that compare lists of a quarter of the text."""
    return congruous(length, 4)


SUBRANGES = "program p; type e=(m,n);f=(o,r);t=m..n;u=o..r; "


def list_of_subranges(room: int, names: Iterable[str]) -> str:
    """A list of formal procedures, about as long as there is room for, of parameters with these names and of two
    subranges of enumerated types by turns."""
    parameters = ";".join(f"{name}:{'tu'[k % 2]}" for k, name in enumerate(names))
    children = formal_list(room * 15 // (15 + len(parameters)))
    return re.sub(r"procedure (b\d+)(?=[;)])", rf"procedure \1({parameters})", children)


def of_subranges(length: int, names: Iterable[str]) -> str:
    """Calls that compare such lists of a quarter of the text."""
    formals = list_of_subranges(length // 4, names)
    head = f"{SUBRANGES}procedure q(procedure a{formals});begin end; procedure s{formals};begin end; begin "
    return filled(head, "q(s);", " end.\n", length)


@shape()
def congruity_subranges(length: int) -> str:
    """Calls that compare lists of a quarter of the text, of parameters of two subranges of enumerated types by
    turns."""
    return of_subranges(length, (f"b{k}" for k in range(MOST_PARAMETERS)))


@shape()
def congruity_letters(length: int) -> str:
    """The same, with the shortest names."""
    letters = [letter for letter in string.ascii_lowercase if letter not in "tu"]
    return of_subranges(length, [*letters, *(f"a{k}" for k in range(MOST_PARAMETERS - len(letters)))])


@shape()
def congruity_crosswise(length: int) -> str:
    """Calls that pass two procedures to each of two others, with such lists of an eighth of the text."""
    formals = list_of_subranges(length // 8, (f"b{k}" for k in range(MOST_PARAMETERS)))
    routines = "".join(f"procedure {name}(procedure a{formals});begin end; " for name in "qw")
    routines += "".join(f"procedure {name}{formals};begin end; " for name in "sv")
    return filled(f"{SUBRANGES}{routines}begin ", "q(s);q(v);w(s);w(v);", " end.\n", length)


@shape()
def congruity_eighth(length: int) -> str:
    """Calls that compare lists of an eighth of the text."""
    return congruous(length, 8)


@shape()
def congruity_routines(length: int) -> str:
    """Routines, each with one call that compares lists of a quarter of the text."""
    formals = formal_list(length // 4)
    head = f"program p; procedure q(procedure a{formals});begin end; procedure r{formals};begin end; "
    return filled(head, numbered("procedure a#;begin q(r)end;"), " begin end.\n", length)


@shape()
def congruity_small(length: int) -> str:
    """Calls that compare lists of 1,000 bytes."""
    return congruous(length, max(4, length // 1000))


@shape()
def congruity_refused(length: int) -> str:
    """Such calls, the last of which passes one whose list is another."""
    formals = formal_list(length // 4)
    routines = f"procedure q(procedure a{formals});begin end; procedure r{formals};begin end; procedure s;begin end;"
    return filled(f"program p; {routines} begin ", "q(r);", "q(s) end.\n", length)


@shape()
def congruity_parameters(length: int) -> str:
    """Calls that pass a formal procedure on."""
    formals = formal_list(length // 4)
    head = f"program p; procedure q(procedure a{formals});begin end; procedure r(procedure b{formals});begin "
    return filled(head, "q(b);", " end; begin end.\n", length)


many("calls", "calls", "program p; procedure q;begin end; begin ", "q;", " end.\n")
many("calls_recursive", "calls of itself", "program p; procedure q;begin ", "q;", " end; begin end.\n")
many(
    "calls_32", "calls with as many parameters as may be",
    f"program p; procedure q({names('a', 32)}:char);begin end; begin ", f"q({','.join(['chr(1)'] * 32)});", " end.\n",
)
many(
    "calls_variables", "calls with variables as parameters",
    f"program p; var v:char;procedure q(var {names('a', 32)}:char);begin end; begin ", f"q({','.join('v' * 32)});",
    " end.\n",
)
many(
    "calls_passed", "calls with procedures as parameters",
    "program p; procedure q(procedure a;procedure b);begin end; procedure r;begin end; begin ", "q(r,r);", " end.\n",
)
many(
    "calls_each", "calls of procedures of their own", "program p; procedure q0;begin end;",
    "procedure q@;begin q# end;", "begin end.\n",
)
many(
    "copy_values", "arrays as values",
    "program p; type t=array[1..2]of integer; var a:t; procedure q(x:t);begin end; begin ", "q(a);", " end.\n",
)
many(
    "set_values", "eight sets as values",
    "program p; type t=set of 1..2; var s:t; procedure q(a,b,c,d,e,f,g,h:t);begin end; begin ", "q(s,s,s,s,s,s,s,s);",
    " end.\n",
)
many(
    "set_values_32", "32 sets as values",
    f"program p; type t=set of 1..2; var s:t; procedure q({names('a', 32)}:t);begin end; begin ",
    f"q({','.join('s' * 32)});", " end.\n",
)
many(
    "set_values_sum", "such calls in one expression",
    f"program p; type t=set of 1..2; var s:t;y:integer; function f({names('a', 32)}:t):integer;begin f:=1 end; begin y:=",
    f"f({','.join('s' * 32)})", " end.\n", "+",
)
many(
    "text_values", "strings as values",
    "program p; type t=packed array[1..2]of char; procedure q(a,b,c,d:t);begin end; begin ",
    "q('ab','ab','ab','ab');", " end.\n",
)

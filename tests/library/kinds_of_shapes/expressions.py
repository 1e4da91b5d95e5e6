"""Shapes of texts: expressions, sets, input, output and strings."""

from kinds_of_shapes.declarations import wide_record
from kinds_of_shapes.form import DEPTH, HEAD, MOST_PARAMETERS, filled, many, names, nested, numbered, program, shape

INTEGER = "program p; var y:integer; begin "
BOOLEAN = "program p; var y:boolean; begin "
FUNCTION = "program p; var y:integer; function f:integer;begin f:=1 end; begin "
APPLIED = "program p; var y:integer; function f(x:integer):integer;begin f:=1 end; begin "

nested("not_deep", "`not` of one another", BOOLEAN, "not ", "y", "", " end.\n", "y:=")
nested("parentheses_deep", "parentheses in one another", INTEGER, "(", "y", ")", " end.\n", "y:=")
nested("minus_deep", "negations of one another", INTEGER, "-(", "y", ")", " end.\n", "y:=")
nested("right_operands", "sums as right operands of one another", INTEGER, "y+(", "y", ")", " end.\n", "y:=")
nested("right_operands_call", "the same around a call", FUNCTION, "y+(", "f", ")", " end.\n", "y:=")
nested("both_operands_call", "the same with calls on both sides", FUNCTION, "f+(", "f", ")", " end.\n", "y:=")
nested("right_products", "products as right operands of one another", INTEGER, "y*(", "y", ")", " end.\n", "y:=")
nested("right_quotients", "quotients as right operands of one another", INTEGER, "y div(", "y", ")", " end.\n", "y:=")
nested("right_and", "`and` as right operands of one another", BOOLEAN, "y and(", "y", ")", " end.\n", "y:=")
nested(
    "right_or_and", "`or` and `and` in turn as right operands", BOOLEAN, "y or(y and(", "y", "))", " end.\n", "y:=",
    depth=DEPTH // 2,
)
nested("right_relations", "relations as right operands of one another", BOOLEAN, "y=(", "y", ")", " end.\n", "y:=")
nested("condition_relations", "the same as conditions", BOOLEAN, "y<=(", "y", ")", " end.\n", "if ", " then;")
nested(
    "condition_or_and", "`or` and `and` in turn as conditions", BOOLEAN, "y or(y and(", "y", "))", " end.\n", "if ",
    " then;", DEPTH // 2,
)
nested(
    "indices_deep", "indices in one another", "program p; var a:array[1..2]of integer; begin ", "a[", "1", "]",
    " end.\n", "a[1]:=",
)
nested(
    "indices_deep_call", "the same around a call",
    "program p; var a:array[1..2]of integer;function f:integer;begin f:=1 end; begin ", "a[", "f", "]", " end.\n",
    "a[1]:=",
)
nested(
    "indices_deep_target", "indices in one another of a target", "program p; var a:array[1..2]of integer; begin ",
    "a[", "1", "]", " end.\n", "", ":=1;",
)
nested("calls_deep", "calls in one another", APPLIED, "f(", "y", ")", " end.\n", "y:=")
nested(
    "calls_deep_statement", "calls in one another of a procedure's parameter",
    APPLIED.replace(" begin ", " procedure q(x:integer);begin end; begin ", 1), "f(", "y", ")", " end.\n", "q(", ");",
)
nested("required_deep", "required functions of one another", INTEGER, "abs(", "y", ")", " end.\n", "y:=")
nested(
    "required_deep_pairs", "succ and pred of one another", INTEGER, "succ(pred(", "y", "))", " end.\n", "y:=",
    depth=DEPTH // 2,
)
nested(
    "required_deep_ordinals", "ord and chr of one another", INTEGER, "ord(chr(", "y", "))", " end.\n", "y:=",
    depth=DEPTH // 2,
)
nested(
    "sets_deep", "sums of sets as right operands of one another", "program p; var s:set of 0..255; begin ", "s+(",
    "s", ")", " end.\n", "s:=",
)
nested(
    "sets_deep_products", "products of sets as right operands of one another",
    "program p; var s:set of 0..255; begin ", "s*(", "s", ")", " end.\n", "s:=",
)
nested(
    "members_deep", "`in` of members of one another", BOOLEAN, "true in [false..", "y", "]", " end.\n", "y:=",
    depth=DEPTH // 2,
)


def round_sum(length: int, opened: str, closed: str, declared: str, target: str, last: str = "", share: int = 1) -> str:
    """A long sum in the innermost of as many expressions in one another as may be."""
    depth = (DEPTH - 10) // share
    head = f"program p; var y:integer;{declared} begin {target}{opened * depth}y"
    return filled(head, "+y", f"{last}{closed * depth} end.\n", length)


@shape(is_deep=True)
def relations_round_sum(length: int) -> str:
    """A long sum as the innermost operand of relations in one another."""
    return round_sum(length, "b=(", ")", "b:boolean;", "b:=", ">0")


@shape(is_deep=True)
def sums_round_sum(length: int) -> str:
    """A long sum as the innermost operand of sums in one another."""
    return round_sum(length, "y+(", ")", "", "y:=")


@shape(is_deep=True)
def sums_round_call(length: int) -> str:
    """The same with a call at the end of the long one."""
    declared = "function f:integer;begin f:=1 end;"
    return round_sum(length, "y+(", ")", declared, "y:=", "+f")


@shape(is_deep=True)
def indices_round_sum(length: int) -> str:
    """A long sum as the innermost of indices in one another."""
    return round_sum(length, "y+a[", "]", "a:array[1..2]of integer;", "y:=", share=2)


OF_32 = f"function f({names('x', MOST_PARAMETERS)}:integer):integer;begin f:=1 end;"
APPLIED_TO_32 = f"program p; var y:integer; {OF_32} begin "

nested(
    "calls_deep_last", "calls in one another as the last of 32 parameters", APPLIED_TO_32, "f(" + "y," * 31, "y", ")",
    " end.\n", "y:=",
)
nested(
    "calls_deep_first", "calls in one another as the first of 32 parameters", APPLIED_TO_32, "f(", "y",
    ",y" * 31 + ")", " end.\n", "y:=",
)
nested(
    "calls_deep_live", "the same as the last, behind values that branch", APPLIED_TO_32, "f(" + "abs(y)," * 31, "y",
    ")", " end.\n", "y:=",
)
nested(
    "calls_deep_booleans", "calls in one another behind Booleans",
    APPLIED_TO_32.replace("integer", "boolean").replace("f:=1", "f:=y"), "f(" + "y=y," * 31, "y", ")", " end.\n",
    "y:=",
)

many("sum_long", "operands of one sum", INTEGER + "y:=y", "+y", " end.\n")
many("sum_long_call", "calls of one sum", FUNCTION + "y:=y", "+f", " end.\n")
many("sum_long_required", "required functions of one sum", INTEGER + "y:=y", "+abs(y)", " end.\n")
many("product_long", "operands of one product", INTEGER + "y:=y", "*y", " end.\n")
many("quotient_long", "operands of one quotient", INTEGER + "y:=y", " div y", " end.\n")
many("remainder_long", "operands of one remainder", INTEGER + "y:=y", " mod y", " end.\n")
many("and_long", "operands of one `and`", BOOLEAN + "y:=y", " and y", " end.\n")
many("or_long", "relations of one `or`", BOOLEAN + "y:=y", " or(1<2)", " end.\n")
many("or_long_condition", "relations of one `or` as a condition", BOOLEAN + "if y", " or(1<2)", " then end.\n")
many("or_and_long_condition", "pairs of one `or` as a condition", BOOLEAN + "while y", " or y and y", " do end.\n")
many("in_long", "tests of members of one `or`", BOOLEAN + "y:=y", " or(1 in[1,2])", " end.\n")
many(
    "selectors_pointer", "pointers and fields of one variable",
    "program p; type t=^r; r=record n:t end; var v:t; begin v:=v", "^.n", " end.\n",
)
many(
    "selectors_target", "the same of a target", "program p; type t=^r; r=record n:t end; var v:t; begin v", "^.n",
    ":=nil end.\n",
)
many(
    "selectors_index", "pointers and indices of one variable",
    "program p; type t=^r; r=array[1..2]of t; var v:t; begin v:=v", "^[1]", " end.\n",
)
many(
    "selectors_index_call", "the same with calls",
    "program p; type t=^r; r=array[1..2]of t; var v:t; function f:integer;begin f:=1 end; begin v:=v", "^[f]",
    " end.\n",
)
many(
    "selectors_field", "fields of a record of 1,000", f"program p; var r:{wide_record(1000)}; begin ", "r.a999:=2;",
    " end.\n",
)
many(
    "selectors_variable", "variables with selectors as parameters",
    "program p; var a:array[1..9]of record x:char end;procedure q(var c:char);begin end; begin ", "q(a[1].x);",
    " end.\n",
)


@shape(is_deep=True)
def selectors_within(length: int) -> str:
    """Assignments to what lies in records in one another as deep as may be."""
    depth = 240
    head = f"program p; var v:{'record f:' * depth}char{' end' * depth}; begin "
    return filled(head, f"v{'.f' * depth}:='a';", " end.\n", length)


@shape()
def indices_use(length: int) -> str:
    """One use of an array with many indices."""
    count = (length - 80) // 4
    return program(f"type b=1..1; var v:array[{','.join('b' * count)}]of integer;", f"v[{','.join('1' * count)}]:=1")


@shape()
def indices_use_variables(length: int) -> str:
    """The same with a variable as each index."""
    count = (length - 90) // 4
    declared = f"type b=1..1; var i:b;v:array[{','.join('b' * count)}]of integer;"
    return program(declared, f"v[{','.join('i' * count)}]:=1")


many("ranges_assigned", "values of another range", "program p; var y:1..2;x:integer; begin ", "y:=x;", " end.\n")
many(
    "arrays_indexed", "arrays with checked indices", "program p; var a:array[1..9]of integer;i:integer; begin ",
    "a[i]:=i;", " end.\n",
)
many(
    "arrays_indexed_twice", "arrays with two checked indices",
    "program p; var a:array[1..9,1..9]of integer;i:integer; begin ", "a[i,i]:=a[i,i];", " end.\n",
)
many("new_pointers", "new integers", "program p; var y:^integer; begin ", "new(y);", " end.\n")
many("pointers_followed", "pointers that are followed", "program p; var y:^integer; begin ", "y^:=y^;", " end.\n")
many(
    "packs", "calls of pack", "program p; var a:array[1..9]of char; z:packed array[1..9] of char; begin ",
    "pack(a,1,z);", " end.\n",
)
many(
    "unpacks", "calls of unpack", "program p; var a:array[1..9]of char; z:packed array[1..9] of char; begin ",
    "unpack(z,a,1);", " end.\n",
)

# Sets

SETS = "program p; var s:set of 0..255; begin "
many("set_members", "members of one set", SETS + "s:=[", "1", "] end.\n", ",")
many("set_members_rising", "different members of one set", SETS + "s:=[", lambda k: str(k % 256), "] end.\n", ",")
many(
    "set_members_variables", "variables as members of one set",
    "program p; var s:set of 0..255;y:integer; begin s:=[", "y", "] end.\n", ",",
)
many(
    "set_ranges_call", "ranges of calls as members of one set",
    "program p; var s:set of 0..255;function f:integer;begin f:=1 end; begin s:=[", "f..f", "] end.\n", ",",
)
many("sets_empty", "empty sets", "program p; var s:set of 1..2; begin ", "s:=[];", " end.\n")
many("sets_large", "large sets", SETS, "s:=[0..255];", " end.\n")
many("sets_sum", "operands of one sum of sets", "program p; var s:set of 1..2; begin s:=", "s+", "s end.\n")
many("sets_difference", "members of one difference of sets", SETS + "s:=s", "-[1]", " end.\n")
many(
    "sets_compared", "sets that are compared", "program p; var s:set of 0..255;y:boolean; begin ", "y:=s<=s;",
    " end.\n",
)
many(
    "sets_tested", "members that are tested", "program p; var s:set of 0..255;y:boolean; begin ", "y:=1 in s;",
    " end.\n",
)
many(
    "sets_tested_own", "members that are tested in sets written out", "program p; var y:boolean; begin ",
    "y:=1 in[1..9];", " end.\n",
)

# as long as their code just fits into an image
FITS_NARROWED = 65_536


@shape()
def sets_narrowed(length: int) -> str:
    """Sets that are assigned to ones of fewer members, in as much code as may be."""
    head = "program p; var s:set of 0..255;t:set of 100..140; begin "
    return filled(head, "t:=s;", " end.\n", min(length, FITS_NARROWED))


# Input, output and strings

many("write_list", "values of one write", HEAD + "begin write(", "1", ") end.\n", ",")
many("write_statements", "calls of write", HEAD + "begin ", "write(1);", " end.\n")
many("write_widths", "values with widths of one write", HEAD + "begin write(", "1:1", ") end.\n", ",")
many("write_booleans", "Booleans of one write", HEAD + "var y:boolean; begin write(", "y", ") end.\n", ",")
many("write_characters", "characters of one write", HEAD + "begin write(", "'a'", ") end.\n", ",")
many("write_texts", "strings of one write", HEAD + "begin write(", "'ab'", ") end.\n", ",")
many("write_texts_each", "different strings of one write", HEAD + "begin write(", "'a#'", ") end.\n", ",")
many("write_texts_wide", "strings with widths of one write", HEAD + "begin write(", "'ab':9", ") end.\n", ",")
many("write_texts_long", "calls of write with 100 characters", HEAD + "begin ", f"write('{'x' * 100}');", " end.\n")
many("read_list", "variables of one read", HEAD + "var y:integer; begin read(", "y", ") end.\n", ",")
many("read_characters", "characters of one read", HEAD + "var y:char; begin read(", "y", ") end.\n", ",")
many(
    "read_ranges", "indexed variables of one read", HEAD + "var i:integer;a:array[1..9]of 1..9; begin read(", "a[i]",
    ") end.\n", ",",
)
many("writelns", "ends of lines", HEAD + "begin ", "writeln;", " end.\n")
many("readlns", "skipped lines", HEAD + "begin ", "readln;", " end.\n")
many("eofs", "tests for the end", HEAD + "begin ", "if eof then;", " end.\n")
many("texts_compared", "strings that are compared", "program p; var y:boolean; begin ", "y:='ab'='cd';", " end.\n")
many(
    "texts_compared_variables", "string variables that are compared",
    "program p; var y:boolean;s:packed array[1..9]of char; begin ", "y:=s<'abcdefghi';", " end.\n",
)
many(
    "texts_assigned", "strings that are assigned", "program p; var s:packed array[1..9]of char; begin ",
    "s:='abcdefghi';", " end.\n",
)


def with_text_constant(length: int, size: int, statement: str, declared: str = "") -> str:
    """Uses of a constant that is a string of so many characters."""
    return filled(f"program p(output); const s='{'x' * size}';{declared}begin ", statement, " end.\n", length)


@shape()
def text_constant_1000(length: int) -> str:
    """Calls of write with a string constant of 1,000 characters."""
    return with_text_constant(length, 1000, "write(s);")


@shape()
def text_constant_half(length: int) -> str:
    """Calls of write with a string constant that is half of the text."""
    return with_text_constant(length, length // 2, "write(s);")


@shape()
def text_constant_compared(length: int) -> str:
    """Comparisons of a string constant that is half of the text."""
    return with_text_constant(length, length // 2, "y:=s=s;", "var y:boolean;")


@shape()
def text_constant_assigned(length: int) -> str:
    """Assignments of a string constant of a fifth of the text, or as much as a variable takes."""
    size = min(length // 5, 90_000)
    return with_text_constant(length, size, "v:=s;", f"var v:packed array[1..{size}]of char;")


@shape()
def text_constant_passed(length: int) -> str:
    """A string constant of 1,000 characters as a value."""
    return with_text_constant(length, 1000, "q(s);", "type t=packed array[1..1000]of char;procedure q(v:t);begin end;")


@shape()
def text_constant_chain(length: int) -> str:
    """Constants that are each the same string, which is half of the text."""
    return filled(f"program p; const s='{'x' * (length // 2)}';", numbered("a#=s;"), "begin end.\n", length)


@shape()
def text_constant_links(length: int) -> str:
    """Constants that are each the one before, the first a string that is half of the text."""
    return filled(f"program p; const a0='{'x' * (length // 2)}';", numbered("a@=a#;"), "begin end.\n", length)


@shape()
def text_constant_case(length: int) -> str:
    """A string constant that is half of the text as a constant of `case`, which is a fault."""
    text = with_text_constant(length - 60, length // 2, "y:=1;", "var y:integer;")
    return text.replace(" end.", " case y of s:end end.")


@shape()
def text_constants_1000(length: int) -> str:
    """String constants of 1,000 characters, each written."""
    count = length // 1030
    constants = "".join(f"a{k}='{'x' * 1000}';" for k in range(count))
    return program(f"const {constants}", "".join(f"write(a{k});" for k in range(count))).replace("p;", "p(output);", 1)

"""Shapes of texts: tokens and declarations."""

from kinds_of_shapes.form import HEAD, MOST_CELLS, MOST_LINES, filled, last_name, many, numbered, program, shape

many("assignments", "assignments, the ordinary text", "program p; var y:integer; begin ", "y:=1;", " end.\n")
many("empty_statements", "statements of nothing", HEAD + "begin ", ";", " end.\n")
many("blanks", "blanks", HEAD + "begin ", " ", "end.\n")
many("lines", "lines of a statement", "program p; var y:integer; begin ", "y:=1;\n", " end.\n", most=MOST_LINES)
many("lines_empty", "empty lines", HEAD + "begin ", "\n", "end.\n", most=MOST_LINES)
many("comment_long", "one comment", HEAD + "begin {", "x", "} end.\n")
many("comments_short", "empty comments", HEAD + "begin ", "{}", " end.\n")
many("comment_stars", "what begins a comment, within one", HEAD + "begin (*", "(*", "*) end.\n")
many("comment_open", "what begins a comment, without an end", HEAD + "begin ", "{ (* ", "")
many("string_open", "a string without an end", HEAD + "begin write('", "x", "")
many("string_long", "one string", HEAD + "begin write('", "x", "') end.\n")
many("string_quotes", "apostrophes in one string", HEAD + "begin write('", "''", "') end.\n")
many("digits_long", "one number's noughts", HEAD + "begin write(", "0", "1) end.\n")
many(
    "capitals", "one name in capitals and small letters", "program p; var abcdefgh:integer; begin ",
    "aBcDeFgH:=1;ABCDEFGH:=2;", " end.\n",
)
many("bad_byte_last", "a bad byte behind statements", "program p; var y:integer; begin ", "y:=1;", " _ end.\n")
many(
    "touching_last", "a number that touches a name, behind statements", "program p; var y:integer; begin ", "y:=1;",
    " y:=1y end.\n",
)


@shape()
def name_long(length: int) -> str:
    """Two uses of one name that is half of the text."""
    name = "x" * ((length - 60) // 2)
    return program(f"var {name}:integer;", f"{name}:=1")


@shape()
def variables_of_long_field_names(length: int) -> str:
    """Routines with twenty variables of a record type whose field has a name of half of the text."""
    head = f"program p; type t=record {'x' * (length // 2)}:integer end; "
    variables = ",".join("abcdefghijklmnopqrsu")
    return filled(head, numbered(f"procedure v#;var {variables}:t;begin end;"), "begin end.\n", length)


@shape()
def name_long_used(length: int) -> str:
    """Uses of a name of 1,000 bytes."""
    name = "x" * 1000
    return filled(f"program p; var {name}:integer; begin ", name + ":=1;", " end.\n", length)


many(
    "names_long", "names of 1,000 bytes, different at their ends", "program p; var ", lambda k: "x" * 1000 + str(k),
    ":integer; begin end.\n", ",",
)
many("program_name_long", "the program's name", "program ", "x", "; begin end.\n")
many("program_parameters", "parameters of the program", "program p(", "a#", "); begin end.\n", ",")

# Declarations

many(
    "variables_one_list", "variables of one list", "program p; var ", "a#", ":integer; begin end.\n", ",", MOST_CELLS
)
many(
    "variables_each", "variables, each with its type", "program p; var ", "a#:integer;", "begin end.\n",
    most=MOST_CELLS,
)
many(
    "variables_subrange", "variables of subranges", "program p; var ", lambda k: f"a{k}:{k % 3 + 1}..{k % 3 + 2};",
    "begin end.\n", most=MOST_CELLS,
)
many(
    "variables_array", "variables of arrays", "program p; var ", "a#:array[1..1]of char;", "begin end.\n",
    most=MOST_CELLS,
)
many("constants", "constants", "program p; const ", "a#=#;", "begin end.\n")
many("constants_chain", "constants, each of the one before", "program p; const a0=1;", "a@=a#;", "begin end.\n")
many("constants_signed", "constants, each less the one before", "program p; const a0=1;", "a@=-a#;", "begin end.\n")
many("constants_text", "constants of strings", "program p; const ", "a#='ab#';", "begin end.\n")
many("enumeration", "constants of one enumeration", "program p; type t=(", "a#", "); begin end.\n", ",")
many("enumerations", "enumerations", "program p; type ", "t#=(a#);", " begin end.\n")
many("types_chain", "types, each named as the one before", "program p; type a0=integer;", "a@=a#;", " begin end.\n")
many("types_subrange", "subranges", "program p; const c=1;type ", "a#=c..2;", " begin end.\n")
many("types_set", "types of sets", "program p; type ", "a#=set of 1..9;", " begin end.\n")
many(
    "types_text", "types of strings", "program p; type ", lambda k: f"a{k}=packed array[1..{k % 99 + 2}]of char;",
    " begin end.\n",
)
many(
    "arrays_chain", "arrays, each of the one before", "program p; type a0=integer;", "a@=array[1..1]of a#;",
    " begin end.\n",
)
many(
    "arrays_indices", "indices of one array", "program p; type b=1..1; var v:array[", "b",
    "]of integer; begin end.\n", ",",
)
many(
    "arrays_packed", "indices of one packed array", "program p; type b=1..1; var v:packed array[", "b",
    "]of boolean; begin end.\n", ",",
)
many(
    "fields_one_list", "fields of one list", "program p; type t=record ", "a#", ":integer end; begin end.\n", ",",
    MOST_CELLS,
)
many(
    "fields_each", "fields, each with its type", "program p; var t:record ",
    lambda k: f"a{k}:{k % 3 + 1}..{k % 3 + 2}", " end; begin end.\n", ";", MOST_CELLS,
)
many("records", "records", "program p; type ", "a#=record x:integer end;", " begin end.\n")
many("pointers", "pointer types to a type behind them", "program p; type ", "a#=^t;", "t=integer; begin end.\n")
many(
    "pointers_each", "pointer types, each with its domain", "program p; type ", "a#=^b#;b#=integer;", " begin end.\n"
)
many("pointers_variables", "variables of pointer types", "program p; var ", "a#:^integer;", " begin end.\n")
many(
    "pointers_records", "records with pointers to the first one", "program p; type ", "a#=record n:^a0 end;",
    " begin end.\n",
)
many(
    "pointer_unknown_last", "pointer types, the last to a type that isn't there", "program p; type ", "a#=^t;",
    "t=integer; z=^q; begin end.\n",
)


def chain_variable(length: int, first: str, link: str) -> str:
    """A variable of the last of a chain of types."""
    types = filled(f"program p; type {first}", numbered(link), "", length - 60)
    return f"{types} var v:{last_name(types)}; begin end.\n"


@shape()
def arrays_chain_variable(length: int) -> str:
    """A variable of an array of arrays of one another."""
    return chain_variable(length, "a0=integer;", "a@=array[1..1]of a#;")


@shape()
def records_chain_variable(length: int) -> str:
    """A variable of a record of records in one another."""
    return chain_variable(length, "a0=integer;", "a@=record f:a# end;")


@shape()
def records_chain_assigned(length: int) -> str:
    """Assignments of a record of records in one another."""
    types = filled("program p; type a0=integer;", numbered("a@=record f:a# end;"), "", length // 2)
    return filled(f"{types} var v,w:{last_name(types)}; begin ", "v:=w;", " end.\n", length)


@shape()
def variables_of_records_chain(length: int) -> str:
    """Variables of a record of records in one another, each of a name."""
    types = filled("program p; type a0=char;", numbered("a@=record f:a# end;"), "", length * 2 // 3)
    return filled(f"{types} var ", numbered("v#"), f":{last_name(types)}; begin end.\n", length, ",", MOST_CELLS)


@shape()
def variables_of_many_indices(length: int) -> str:
    """Variables of one array whose indices are a third of the text."""
    array = f"array[{','.join('t' * (length // 6))}]of char"
    return filled("program p; type t=1..1; var ", numbered("v#"), f":{array}; begin end.\n", length, ",", MOST_CELLS)


@shape()
def new_empty_fields(length: int) -> str:
    """New records whose fields, half of the text, take no bytes, but for the last."""
    head, tail = "program p; type e=record end;r=record ", ":e;z:char end;"
    record = filled(head, numbered("a#"), tail, length // 2, ",", MOST_CELLS)
    return filled(f"{record} var v:^r; begin ", "new(v);", " end.\n", length)


@shape(is_deep=True)
def records_within(length: int) -> str:
    """Fields of a record that lies within others as deep as may be."""
    depth = 240
    head, tail = f"program p; var v:{'record f:' * depth}record ", " end" * (depth + 1) + "; begin end.\n"
    return filled(head, numbered("a#:char"), tail, length, ";", MOST_CELLS)


@shape(is_deep=True)
def records_within_indices(length: int) -> str:
    """Indices of an array within records that lie in one another as deep as may be."""
    depth = 485
    head, tail = (
        f"program p; type t=1..1; var v:{'record f:' * depth}array[t",
        "]of char" + " end" * depth + "; begin end.\n",
    )
    return filled(head, ",t", tail, length)


@shape(is_deep=True)
def arrays_within(length: int) -> str:
    """Variables of arrays that lie within one another as deep as may be."""
    return filled("program p; var ", lambda k: f"a{k}:{'array[1..1]of ' * 240}char;", " begin end.\n", length)


def doubled(levels: int) -> str:
    """Types of records, each with two of the one before: the last has as many cells as 2 to this power."""
    return "type t0=char;" + "".join(f"t{k + 1}=record a,b:t{k} end;" for k in range(levels))


def summed(levels: int) -> str:
    """Types of records, each with the two before."""
    return "type t0=char;t1=char;" + "".join(f"t{k + 2}=record a:t{k + 1};b:t{k} end;" for k in range(levels))


many(
    "doubled_types", "sequences of doubled records", "program p; ",
    lambda k: f"procedure q{k};{doubled(16)}begin end;", "begin end.\n",
)
many(
    "doubled_variables", "local variables of a record of 65,536 cells", f"program p; {doubled(16)}",
    "procedure q#;var v:t16;begin end;", "begin end.\n",
)
many(
    "doubled_assigned", "assignments of such records", f"program p; {doubled(15)}var v,w:t15;begin ", "v:=w;",
    "end.\n",
)
many(
    "doubled_values", "records of 1,024 cells as values",
    f"program p; {doubled(10)}var v:t10;procedure q(x:t10);begin end;begin ", "q(v);", "end.\n",
)
many("doubled_new", "new records of 65,536 cells", f"program p; {doubled(16)}var v:^t16;begin ", "new(v);", "end.\n")
many(
    "doubled_new_each", "new records of types of their own", f"program p; {doubled(12)}",
    "procedure q#;type r=record a:t12 end;var v:^r;begin new(v) end;", "begin end.\n",
)
many(
    "summed_new", "new records of 75,025 cells that grow as Fibonacci's numbers",
    f"program p; {summed(23)}var v:^t24;begin ", "new(v);", "end.\n",
)
many(
    "summed_assigned", "assignments of those of 46,368 cells", f"program p; {summed(22)}var v,w:t23;begin ", "v:=w;",
    "end.\n",
)
many(
    "doubled_too_large", "doubled records up to one that is too large, behind others", "program p; type ",
    "a#=record x:integer end;", f"{doubled(17)[5:]} begin end.\n",
)
many(
    "array_large_new", "new arrays of 100,000 cells", "program p; type t=array[1..100000]of char;var v:^t;begin ",
    "new(v);", "end.\n",
)
many(
    "array_large_assigned", "assignments of arrays of 50,000 cells",
    "program p; var v,w:array[1..49000]of char;begin ", "v:=w;", "end.\n",
)
many(
    "array_large_local", "local arrays of 100,000 cells", "program p; ",
    "procedure q#;var v:array[1..100000]of 1..2;begin end;", "begin end.\n",
)


def tenfold() -> str:
    """Types of records of ten fields, each of the record before: the last has 100,000 cells."""
    fields = "record a,b,c,d,e,f,g,h,i,j:"
    return f"type t={fields}char end;" + "".join(f"{new}={fields}{old} end;" for new, old in zip("uvwz", "tuvw"))


@shape()
def new_large(_: int) -> str:
    """32 new records of 100,000 cells, in 437 bytes."""
    return program(tenfold() + "var y:^z;", "new(y);" * 32)


@shape()
def new_large_1000(_: int) -> str:
    """1,000 new records of 100,000 cells, in 7 KB."""
    return program(tenfold() + "var y:^z;", "new(y);" * 1000)


def wide_record(count: int) -> str:
    """A record of fields with different first values."""
    return "record " + ";".join(f"a{k}:{k % 3 + 1}..{k % 3 + 2}" for k in range(count)) + " end"


for width in (8, 16, 64, 1000):
    many(
        f"new_wide_{width}", f"new records of {width} fields",
        f"program p; type r={wide_record(width)}; var y:^r; begin ", "new(y);", " end.\n",
    )
for width in (64, 1000):
    many(
        f"local_wide_{width}", f"local records of {width} fields", f"program p; type r={wide_record(width)}; ",
        "procedure a#;var v:r;begin end;", " begin end.\n",
    )

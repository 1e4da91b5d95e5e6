"""Shapes of texts: `with` statements of many records."""

import itertools

from kinds_of_shapes.declarations import wide_record
from kinds_of_shapes.form import MOST_CELLS, filled, many, names, numbered, program, shape

many(
    "with_routines", "`with` statements of routines", "program p; type r=record x:integer end; var a:r; ",
    "procedure q#;begin with a do x:=1 end;", " begin end.\n",
)
many(
    "with_list", "records of one `with` list", "program p; type r=record x:integer end; var a:r; begin with ", "a",
    " do x:=1 end.\n", ",",
)
many(
    "with_list_each", "different records of one `with` list",
    "program p; var a:array[1..9]of record x:integer end; begin with ", "a[1]", " do x:=1 end.\n", ",",
)
many(
    "with_list_selected", "fields of one another in one `with` list",
    "program p; type t=^r; r=record n:t;x:integer end; var a:t; begin with a^", ",n^", " do x:=1 end.\n",
)
many(
    "with_wide", "names in a `with` of a record of 1,000 fields",
    f"program p; var r:{wide_record(1000)};y:integer; begin with r do begin ", "a7:=1;", " end end.\n",
)
many(
    "with_passed", "calls in a `with` of a pointer's record",
    "program p; type t=record x:integer end;var r:^t;procedure q(var a:integer);begin end; begin with r^ do begin ",
    "q(x);", " end end.\n",
)


@shape()
def with_fields_of_long_names(length: int) -> str:
    """Fields of one record type, whose own field has a name of half of the text, in one `with` list."""
    head = f"program p; type t=record {'x' * (length // 2)}:integer end; var b:record x:t end; begin with "
    return filled(head, "b.x,", "b.x do end.\n", length)


def within_list(length: int, count: int, variables: str, opened: str, statement: str) -> str:
    """Statements in a `with` of a list."""
    declared = f"type r=record x:integer end; var {variables};"
    head = f"program p; {declared} begin with {','.join([opened] * count)} do begin "
    return filled(head, statement, " end end.\n", length)


@shape()
def with_list_6000(length: int) -> str:
    """A `with` of 6,000 records, in 12 KB."""
    return program("type r=record x:integer end; var a:r;", f"with {','.join('a' * 6000)} do x:=1")


@shape()
def with_list_5000(length: int) -> str:
    """Assignments in a `with` of 5,000 records."""
    return within_list(length, 5000, "a:r;y:integer", "a", "y:=1;")


@shape()
def with_list_half(length: int) -> str:
    """Assignments in a `with` of records that are half of the text."""
    return within_list(length, length // 4, "a:r;y:integer", "a", "y:=1;")


@shape()
def with_list_within(length: int) -> str:
    """`with` statements within one of records that are half of the text."""
    return within_list(length, length // 4, "a:r", "a", "with a do;")


@shape()
def with_list_branches(length: int) -> str:
    """Conditions in a `with` of 4,000 pointers' records."""
    return within_list(length, 4000, "a:^r;y:boolean", "a^", "if y then;")


@shape()
def with_list_unknown(length: int) -> str:
    """An unknown name in a `with` of 5,000 records."""
    return within_list(length - 10, 5000, "a:r;y:integer", "a", "y:=1;").replace(" end end.", "zzz:=1 end end.")


@shape()
def with_list_wide(length: int) -> str:
    """Records of 100 fields of one `with` list."""
    head = f"program p; type r={wide_record(100)}; var a:r; begin with "
    return filled(head, "a,", "a do a7:=1 end.\n", length)


LETTERS = "abcdefghijklmnopqrstuvwxyz"


def fields(count: int) -> list[str]:
    """As many short names, none a word symbol."""
    digits = "0123456789abcdefghijklmnopqrstuvwxyz"
    sizes = ("".join(end) for size in range(4) for end in itertools.product(digits, repeat=size))
    ends = itertools.islice((digit + end for end in sizes for digit in digits[:10]), count // 26 + 1)
    return [letter + end for end in ends for letter in digits[10:]][:count]


# of so many, with names of two letters, a type's names are as long as they may be if only the first are noted once
NARROW = 64


def narrow_types(count: int) -> str:
    """Variables of as many such types, which have letters for names."""
    return ";".join(f"{letter}:record {','.join(fields(NARROW))}:char end" for letter in LETTERS[:count])


@shape()
def with_list_64(length: int) -> str:
    """Records of 64 fields of one `with` list."""
    return filled(f"program p; var {narrow_types(1)}; begin with ", "a,", "a do a0:='a' end.\n", length)


@shape()
def with_list_64_turns(length: int) -> str:
    """Two types with the same 64 fields, opened in turn."""
    return filled(f"program p; var {narrow_types(2)}; begin with ", "a,b,", "b do a0:='a' end.\n", length)


@shape()
def with_list_letters(length: int) -> str:
    """Records of 16 fields with names of one letter, of one `with` list."""
    head = f"program p; var z:record {','.join(LETTERS[:16])}:char end; begin with "
    return filled(head, "z,", "z do a:='a' end.\n", length)


@shape()
def with_list_after_types(length: int) -> str:
    """Two types of 64 fields, opened in turn behind 512 types of 11 fields."""
    types = ";".join(f"q{k}=record {','.join(fields(11))}:char end" for k in range(512))
    head = f"program p; type {types}; var {narrow_types(2)}; begin with "
    return filled(head, "a,b,", "b do a0:='a' end.\n", length)


@shape()
def with_lists_64(length: int) -> str:
    """`with` statements that open 26 types of 64 fields each."""
    return filled(f"program p; var {narrow_types(26)}; begin ", f"with {','.join(LETTERS)} do;", " end.\n", length)


def long_names(count: int, length: int) -> str:
    """As many names that take so many characters together."""
    return ",".join("x" * (length // count - 6) + f"{k:05d}" for k in range(count))


@shape()
def with_list_names(length: int) -> str:
    """A record of 64 fields with names that are a third of the text, of one `with` list."""
    return filled(
        f"program p; var b:record {long_names(64, length // 3)}:char end; begin with ", "b,", "b do end.\n", length
    )


@shape()
def with_name_again(length: int) -> str:
    """`with` statements that open a record of one field with a name that is half of the text."""
    return filled(
        f"program p; var b:record {long_names(1, length // 2)}:char end; begin ", "with b do;", " end.\n", length
    )


@shape()
def with_lists_names(length: int) -> str:
    """`with` statements that open 26 variables of a type of 64 fields with names that are half of the text."""
    head = f"program p; var {','.join(LETTERS)}:record {long_names(64, length // 2)}:char end; begin "
    return filled(head, f"with {','.join(LETTERS)} do;", " end.\n", length)


def long_type(length: int) -> str:
    """A program's beginning: a type of 64 fields with names that are half of a text of this length."""
    return f"program p; type tt=record {long_names(64, length // 2)}:char end; "


@shape()
def with_lists_sections(length: int) -> str:
    """The same of variables that are each declared by itself."""
    head = long_type(length) + f"var {';'.join(f'{letter}:tt' for letter in LETTERS)}; begin "
    return filled(head, f"with {','.join(LETTERS)} do;", " end.\n", length)


@shape()
def with_lists_fields(length: int) -> str:
    """`with` statements that open a record and its 26 fields of such a type."""
    head = long_type(length) + f"var aa:record {','.join(LETTERS)}:tt end; begin "
    return filled(head, f"with aa,{','.join(LETTERS)} do;", " end.\n", length)


@shape()
def with_lists_of_fields(length: int) -> str:
    """`with` statements that open the 26 fields of such a type of 50 variables of one record type."""
    names = fields(50)
    head = long_type(length) + f"rr=record {','.join(LETTERS)}:tt end; var {','.join(names)}:rr; begin "
    return filled(head, lambda k: f"with {names[k % 50]},{','.join(LETTERS)} do;", " end.\n", length)


@shape()
def with_lists_of_fields_within(length: int) -> str:
    """`with` statements that open the 26 fields of such a type of a record that is open round them."""
    head = long_type(length) + f"var aa:record {','.join(LETTERS)}:tt end; begin with aa do begin "
    return filled(head, f"with {','.join(LETTERS)} do;", " end end.\n", length)


@shape()
def with_lists_in_lists(length: int) -> str:
    """`with` statements in one another, each of which opens 26 variables of such a type."""
    head = long_type(length) + f"var {','.join(LETTERS)}:tt; begin "
    return filled(head, f"with {','.join(LETTERS)} do " * 100 + ";", " end.\n", length)


@shape()
def with_lists_of_parameters(length: int) -> str:
    """Routines that open their 26 parameters of such a type."""
    letters = ",".join(LETTERS)
    routine = numbered(f"procedure p#(var {letters}:tt);begin with {letters} do end;")
    return filled(long_type(length), routine, "begin end.\n", length)


@shape()
def with_lists_unlike(length: int) -> str:
    """`with` statements that open 11 variables of such a type, behind 15 of integers with names of one letter."""
    listed = ",".join(LETTERS[15:])
    head = f"{long_type(length)}var {','.join(LETTERS[:15])}:integer;{listed}:tt; begin "
    return filled(head, f"with {listed} do;", " end.\n", length)


@shape()
def records_alike_of_a_long_type(length: int) -> str:
    """Record types with 15 fields of such a type."""
    return filled(long_type(length), numbered(f"r#=record {','.join(LETTERS[:15])}:tt end;"), "begin end.\n", length)


@shape()
def routines_of_a_long_type(length: int) -> str:
    """Routines with 26 variables of such a type."""
    return filled(
        long_type(length), numbered(f"procedure p#;var {','.join(LETTERS)}:tt;begin end;"), "begin end.\n", length
    )


@shape()
def records_of_a_long_type(length: int) -> str:
    """Record types with 26 fields of such a type."""
    return filled(long_type(length), numbered(f"r#=record {','.join(LETTERS)}:tt end;"), "begin end.\n", length)


@shape()
def with_list_129(length: int) -> str:
    """Records of 129 fields of one `with` list."""
    head = f"program p; type r=record {','.join(fields(129))}:char end; var b:r; begin with "
    return filled(head, "b,", "b do a0:='a' end.\n", length)


@shape()
def with_list_129_fields(length: int) -> str:
    """Assignments in a `with` of records of 129 fields that are half of the text."""
    head = f"program p; type r=record {','.join(fields(129))}:char end; var b:r;y:integer; begin with "
    return filled(head + ",".join("b" * (length // 4)) + " do begin ", "y:=1;", " end end.\n", length)


@shape()
def with_list_long(length: int) -> str:
    """A record that is half of the text, and opened in the other half."""
    count = min(length // 10, MOST_CELLS)
    head = f"program p; type r=record {','.join(fields(count))}:char end; var b:r; begin with "
    return filled(head, "b,", "b do a0:='a' end.\n", length)


@shape()
def with_list_long_names(length: int) -> str:
    """A record that is half of the text, and opened in the other half by two names in turn."""
    count = min(length // 10, MOST_CELLS // 2)
    head = f"program p; type r=record {','.join(fields(count))}:char end; var b,c:r; begin with "
    return filled(head, "b,c,", "b do a0:='a' end.\n", length)


@shape()
def with_list_long_pointers(length: int) -> str:
    """A record that is half of the text, and opened in the other half by a pointer that is a field of the one
    before."""
    names = ",".join(fields(min(length // 10, MOST_CELLS - 1)))
    head = f"program p; type t=^r; r=record {names}:char;p:t end; var p:t; begin with "
    return filled(head, "p^,", "p^ do a0:='a' end.\n", length)


@shape()
def with_list_long_fields(length: int) -> str:
    """A record that is a third of the text, opened in a third, with assignments in it."""
    names = ",".join(fields(min(length // 15, MOST_CELLS)))
    head = f"program p; type r=record {names}:char end; var b:r;y:integer; begin with "
    return filled(head + ",".join("b" * (length // 6)) + " do begin ", "y:=1;", " end end.\n", length)


@shape()
def with_list_types(length: int) -> str:
    """Types of 129 fields that differ in the last letter, opened in turn in half of the text."""
    first = ",".join(fields(128))
    count = min(length // 1100, MOST_CELLS // 130)
    types = ";".join(f"bb{k}:record {first},zz{k}:char end" for k in range(count))
    return filled(f"program p; var {types}; begin with ", lambda k: f"bb{k % count},", "bb0 do a0:='a' end.\n", length)


@shape()
def with_list_types_fields(length: int) -> str:
    """Types of 129 fields that are half of the text, each opened, with assignments in them."""
    first = ",".join(fields(128))
    count = min(length // 1100, MOST_CELLS // 130)
    types = ";".join(f"bb{k}:record {first},zz{k}:char end" for k in range(count))
    head = f"program p; var {types};y:integer; begin with {','.join(f'bb{k}' for k in range(count))} do begin "
    return filled(head, "y:=1;", " end end.\n", length)

"""Shapes of texts: `with` statements of records of many or large types, or in one another."""

from kinds_of_shapes.declarations import wide_record
from kinds_of_shapes.form import DEPTH, MOST_CELLS, filled, names, shape
from kinds_of_shapes.with_statements import LETTERS, NARROW, fields, narrow_types, within_list

# a sum costs a look-up for each two bytes
SUM = "y:=y" + "+y" * 20 + ";"


def wide_types(count: int, further: str = "", letter: str = "b", width: int = 128) -> str:
    """Variables of as many types of 129 fields, and of the further ones, that differ in one name."""
    first = ",".join(fields(width))
    return ";".join(f"{letter * 2}{k}:record {first},zz{letter}{k}:char{further} end" for k in range(count))


def opened_types(count: int, letter: str = "b") -> str:
    """These variables, to be opened in one `with`."""
    return ",".join(f"{letter * 2}{k}" for k in range(count))


@shape()
def with_types_sums(length: int) -> str:
    """Sums in a `with` of as many types of 129 fields as a third of the text holds."""
    count = min(length // 1400, MOST_CELLS // 130)
    head = f"program p; var {wide_types(count)};y:integer; begin with {opened_types(count)} do begin "
    return filled(head, SUM, " end end.\n", length)


@shape()
def with_types_outermost(length: int) -> str:
    """Sums of a field of the outermost of as many types of 129 fields."""
    count = min(length // 1400, MOST_CELLS // 130)
    first = f"cc:record {','.join('c' + name for name in fields(128))}:char;y:integer end"
    head = f"program p; var {first};{wide_types(count)}; begin with cc,{opened_types(count)} do begin "
    return filled(head, SUM, " end end.\n", length)


@shape()
def with_types_halves(length: int) -> str:
    """Sums of a name that half of the types of 129 fields have, where the other half is opened."""
    count = min(length // 2800, MOST_CELLS // 300)
    declared = f"{wide_types(count)};{wide_types(count, ';y:integer', 'c')};y:integer"
    head = f"program p; var {declared}; begin with {opened_types(count)} do begin "
    return filled(head, SUM, " end end.\n", length)


@shape()
def with_types_everywhere(length: int) -> str:
    """Sums of a name that all types of 129 fields have, each of which is opened."""
    count = min(length // 1400, MOST_CELLS // 140)
    head = f"program p; var {wide_types(count, ';y:integer')}; begin with {opened_types(count)} do begin "
    return filled(head, SUM, " end end.\n", length)


@shape()
def with_types_64(length: int) -> str:
    """Sums of a name that all types of 66 fields have, each of which is opened."""
    count = min(length // 700, MOST_CELLS // 67)
    declared = wide_types(count, ";y:integer", width=NARROW)
    return filled(f"program p; var {declared}; begin with {opened_types(count)} do begin ", SUM, " end end.\n", length)


@shape()
def with_types_name(length: int) -> str:
    """Sums of a name that all types with a field of a long name have, each of which is opened."""
    count = length // 520
    declared = ";".join(f"bb{k}:record {'x' * 192}:char;y:integer end" for k in range(count))
    return filled(f"program p; var {declared}; begin with {opened_types(count)} do begin ", SUM, " end end.\n", length)


@shape()
def with_types_alike(length: int) -> str:
    """Two types with the same 129 fields, opened in turn."""
    names = ",".join(fields(129))
    head = f"program p; var b:record {names}:char end;c:record {names}:char end; begin with "
    return filled(head, "b,c,", "b do a0:='a' end.\n", length)


@shape()
def with_types_mixed(length: int) -> str:
    """Types of 129 and of 100 fields, opened in turn in half of the text."""
    count = min(length // 1100, MOST_CELLS // 240)
    narrow = f"a:record {','.join('d' + name for name in fields(100))}:char end"
    head = f"program p; var {wide_types(count)};{narrow}; begin with "
    return filled(head, lambda k: f"bb{k % count},a,", "bb0 do a0:='a' end.\n", length)


@shape()
def with_long_again(length: int) -> str:
    """`with` statements that open a record that is half of the text, behind another."""
    names = ",".join(fields(min(length // 10, MOST_CELLS - 1)))
    head = f"program p; var b:record {names}:char end;c:record x:char end; begin "
    return filled(head, "with c,b do;", " end.\n", length)


@shape()
def with_long_pointers_again(length: int) -> str:
    """`with` statements that open a record that is half of the text, each by 26 pointers."""
    names = ",".join(fields(min(length // 10, MOST_CELLS - 1)))
    pointers = [f"{letter}z" for letter in LETTERS]
    head = f"program p; type r=record {names}:char end; var {','.join(pointers)}:^r; begin "
    return filled(head, f"with {'^,'.join(pointers)}^ do;", " end.\n", length)


@shape()
def with_types_again(length: int) -> str:
    """`with` statements that open as many types as a third of the text holds, 26 each."""
    count = min(length // 1400, MOST_CELLS // 130) // 26 * 26
    parts = [",".join(f"bb{k}" for k in range(first, first + 26)) for first in range(0, count, 26)]
    head = f"program p; var {wide_types(count)}; begin "
    return filled(head, lambda k: f"with {parts[k % len(parts)]} do;", " end.\n", length)


@shape()
def with_list_fields(length: int) -> str:
    """Assignments in a `with` of records of 100 fields that are half of the text."""
    head = f"program p; type r={wide_record(100)}; var a:r;y:integer; begin with {','.join('a' * (length // 4))} do begin "
    return filled(head, "y:=1;", " end end.\n", length)


@shape(is_deep=True)
def with_lists_deep(length: int) -> str:
    """Assignments within as many `with` statements of two records as may be."""
    head = "program p; type r=record x:integer end; var a:r; y:integer; begin " + "with a,a do " * DEPTH + "begin "
    return filled(head, "y:=1;", " end end.\n", length)


def within_lists_deep(length: int, declared: str, opened: str, statement: str) -> str:
    """Statements within as many `with` statements of a list as may be."""
    return filled(
        f"program p; var {declared}; begin " + f"with {opened} do " * (DEPTH - 1) + "begin ",
        statement,
        " end end.\n",
        length,
    )


@shape(is_deep=True)
def with_lists_deep_64(length: int) -> str:
    """Sums within as many `with` statements as may be, each of 26 types of 64 fields."""
    return within_lists_deep(length, f"{narrow_types(26)};yy:integer", ",".join(LETTERS), SUM.replace("y", "yy"))


def of_other_names(count: int) -> str:
    """Variables of as many types, each of 40 fields whose names no other has."""
    names, variables = fields(64 * count), fields(count)
    lists = (",".join("q" + name for name in names[64 * k : 64 * k + 40]) for k in range(count))
    return ";".join(f"v{name}:record {listed}:char end" for name, listed in zip(variables, lists))


@shape(is_deep=True)
def with_lists_deep_names(length: int) -> str:
    """Sums of 26 names within as many `with` statements as may be, each of up to 64 types with fields of other names."""
    count = max(1, min(64, length // 4000))
    names = ["z" + letter for letter in LETTERS]
    declared = f"{of_other_names(count)};{','.join(names)}:integer"
    return within_lists_deep(
        length, declared, ",".join("v" + name for name in fields(count)), f"za:={'+'.join(names)};"
    )


@shape(is_deep=True)
def with_deep_of_many_names(length: int) -> str:
    """`with` statements of the last of types with fields of other names, which are a third of the text, within others."""
    declared = f"{of_other_names(max(1, length // 650))};b:record x:char end"
    return within_lists_deep(length, declared, "b", "with b do;")


@shape()
def with_lists_within(length: int) -> str:
    """`with` statements of 40 records, within one of 60."""
    head = f"program p; var a:record x:char end; begin with {','.join('a' * 60)} do begin "
    return filled(head, f"with {','.join('a' * 40)} do;", " end end.\n", length)


@shape()
def with_list_again(length: int) -> str:
    """`with` statements within a `with` of records that are a quarter of the text."""
    return within_list(length, length // 8, "a:r", "a", "with a do;")


@shape(is_deep=True)
def with_deep_long(length: int) -> str:
    """Assignments within as many `with` statements as may be, of a record whose fields have nearly all marks."""
    fields = names("a", min(60_000, length // 16))
    head = f"program p; var a:record {fields}:char end;y:char; begin {'with a do ' * 485}begin "
    return filled(head, "y:=y;", " end end.\n", length)


@shape()
def with_list_60(length: int) -> str:
    """Sums in a `with` of 60 records, in which names are still looked up for warnings."""
    head = f"program p; var a:record x:char end;y:integer; begin with {','.join('a' * 60)} do begin "
    return filled(head, SUM, " end end.\n", length)


@shape(is_deep=True)
def with_lists_deep_sums(length: int) -> str:
    """Sums within as many `with` statements of two records as may be."""
    return within_lists_deep(length, "a:record x:integer end;y:integer", "a,a", SUM)


@shape(is_deep=True)
def with_lists_deep_types(length: int) -> str:
    """Sums within as many `with` statements as may be, each of all types of 129 fields."""
    count = max(1, length // 7600)
    return within_lists_deep(length, f"{wide_types(count)};y:integer", opened_types(count), SUM)


@shape(is_deep=True)
def with_lists_deep_halves(length: int) -> str:
    """Sums within such statements of a name that other types of 129 fields have."""
    count = max(1, length // 8000)
    declared = f"{wide_types(count)};{wide_types(4 * count, ';y:integer', 'c')};y:integer"
    return within_lists_deep(length, declared, opened_types(count), SUM)


@shape(is_deep=True)
def with_deep(length: int) -> str:
    """Assignments within as many `with` statements as may be."""
    head = "program p; type r=record x:integer end; var a:r; y:integer; begin " + "with a do " * DEPTH + "begin "
    return filled(head, "y:=1;", " end end.\n", length)


@shape(is_deep=True)
def with_deep_outermost(length: int) -> str:
    """Assignments to a field of the outermost record within as many `with` statements as may be."""
    head = (
        "program p; var a:record x:integer end; b:record y:integer end; begin with a do " + "with b do " * (DEPTH - 1)
    )
    return filled(head + "begin ", "x:=x;", " end end.\n", length)


@shape(is_deep=True)
def with_deep_branches(length: int) -> str:
    """Conditions within as many `with` statements of pointers' records as may be."""
    head = "program p; type r=record x:integer end; var a:^r; y:boolean; begin " + "with a^ do " * DEPTH + "begin "
    return filled(head, "if y then;", " end end.\n", length)


@shape(is_deep=True)
def with_deep_wide(length: int) -> str:
    """Assignments within as many `with` statements of records of 100 fields as may be."""
    head = f"program p; type r={wide_record(100)}; var b:r; y:integer; begin " + "with b do " * DEPTH + "begin "
    return filled(head, "y:=1;", " end end.\n", length)

"""Shapes of texts on which `check` has much to report, or must look far for what it reports."""

import itertools
import string

from kinds_of_shapes.form import DEPTH, filled, many, shape

many(
    "unknown_in_condition", "uses of an unknown name in the condition of a `repeat` that begins with one",
    "program p; begin repeat z:=1; until z", "+z", "=1 end.\n",
)

# names of at most three letters that no word symbol is spelled like, and that aren't `p` and `q`
TAKEN = {"p", "q", "if", "do", "of", "or", "in", "to", "and", "div", "end", "for", "mod", "nil", "not", "set", "var"}


def short_names(room: int) -> str:
    """As many different names as there is room for, with commas between them."""
    names, left = [], room
    for size in (1, 2, 3):
        for letters in itertools.product(string.ascii_lowercase, repeat=size):
            name = "".join(letters)
            if name in TAKEN:
                continue
            left -= size + 1
            if left < 0:
                return ",".join(names)
            names.append(name)
    return ",".join(names)


@shape()
def completed_often(length: int) -> str:
    """Blocks of one forward procedure, which has as many parameters as fill half of the text."""
    head = f"program p;procedure q({short_names(length // 2)}:char);forward;"
    return filled(head, "procedure q;begin end;", "begin end.\n", length)


@shape(is_deep=True)
def unknown_within_records(length: int) -> str:
    """Unknown types of indices within records in one another."""
    head = f"program p;var v:{'record f:' * DEPTH}array[z"
    return filled(head, ",z", f"]of char{' end' * DEPTH};begin end.\n", length)


@shape()
def warned_of_a_long_name(length: int) -> str:
    """Variables that are never assigned, of an enumeration whose first constant fills half of the text."""
    half = length // 2
    names = [f"v{number}" for number in range((half - 100) // 17)]
    head = f"program p; type t=({'x' * half});var y,{','.join(names)}:t;begin "
    return head + "".join(f"y:={name};" for name in names) + "end.\n"


@shape()
def compared_with_many(length: int) -> str:
    """A sum that fills half of the text compared with many values, between which `or` stands."""
    head = f"program p;var x:integer;begin if (x{'+x' * (length // 4)})=1"
    return filled(head, " or 2", " then end.\n", length)


@shape()
def compared_behind_ideographs(length: int) -> str:
    """What `or` stands between, compared with a value whose comment of ideographs fills half of the text."""
    count = length // 6
    head = f"program p;var x:integer;begin if (x{{{'漢' * count}}})=1"
    return filled(head, " or 2", " then end.\n", length - 2 * count)

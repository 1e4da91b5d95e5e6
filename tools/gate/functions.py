"""The functions of a source file in the layout of `rt fmt`: their names, their lines, and where their proofs are."""

import collections
import functools
import re
from typing import Dict, List, Optional

HEADER = re.compile(r"^( *)(?:pub(?:\([^)]*\))? )?(const )?(?:unsafe )?fn (\w+)")
OWNER = re.compile(r"^impl\b(?:<[^>]*>)? (.* for )?(?:&'?\w* ?)?(\w+)")
# what else holds functions
HOLDER = re.compile(r"^(?:pub(?:\([^)]*\))? )?(?:trait|mod|unsafe extern|macro_rules!)\b.*\{$")
CYCLE = re.compile(r"^ *#\[cycle\((\w+)\)\]$")


class Function:
    """A function of a source file, and its type, if it is a method, with the trait after it if only that distinguishes
    it from another; of its lines, counted from 0: the first of its attributes and comments, its header, the first of
    its body, and its last; the cycle of calls of which it is marked as a member, if any; whether it is a trait's
    method; and whether its body, below its header, can be replaced: not that of a constant function, nor one that a
    macro or a trait gives."""

    def __init__(self, name: str, owner: Optional[str], lines: List[str], at: int, body: int, last: int) -> None:
        self.name, self.owner, self.header, self.body, self.last = name, owner, at, body, last
        self.top = top_of(lines, at)
        self.cycle = next((CYCLE.match(line)[1] for line in lines[self.top : at] if CYCLE.match(line)), None)
        self.is_of_trait, self.has_body = False, False


@functools.lru_cache(512)
def functions_of(text: str) -> List[Function]:
    """The functions of a file in the layout of `rt fmt`, in which a body opens at the end of a header or on a line of
    its own, and closes below it; that of a law is empty, on a line of its own."""
    found, traits, owner, trait, is_held, lines = [], {}, None, "", False, text.split("\n")
    for at, line in enumerate(lines):
        if OWNER.match(line):
            trait, owner, is_held = OWNER.match(line)[1], OWNER.match(line)[2], False
        elif HOLDER.match(line):
            is_held = True
        header = HEADER.match(line)
        if not header or len(header[1]) > 4:
            continue
        space = header[1]
        closes = (f"{space}}}", f"{space}{{}}")
        closed = next((number for number in range(at, len(lines)) if lines[number] in closes), at)
        opens = (f"{space}{{", f"{space})")
        bodies = (
            number for number in range(at, closed) if lines[number].startswith(opens) and lines[number].endswith("{")
        )
        body = at if line.endswith("{") else next(bodies, closed)
        function = Function(header[3], owner if space else None, lines, at, body, closed)
        # (a header that ends in its own line, as `fn f() {}` or a trait's, would take the next one's body)
        ends = any(HEADER.match(line) for line in lines[at + 1 : body]) or line.endswith(("}", ";"))
        function.is_of_trait = bool(space and trait)
        traits[function] = trait
        function.has_body = not (space and is_held or header[2] or ends) and body < closed
        found.append(function)
    tell_apart(found, traits)
    return found


def tell_apart(functions: List[Function], traits: Dict[Function, str]) -> None:
    """Adds the trait to the type of a trait's method, as the kit does, if the file has another method of this name and
    type: `RefusalFromScanRefusal`."""
    count = collections.Counter((function.name, function.owner) for function in functions)
    for function in functions:
        if function.is_of_trait and count[function.name, function.owner] > 1:
            function.owner += re.sub(r"\W", "", traits[function].removesuffix(" for "))


def top_of(lines: List[str], at: int) -> int:
    """The first of the lines above a header that belong to it: a blank line, or the opening of a block, ends them."""
    while at and lines[at - 1].strip() and not lines[at - 1].endswith(("{", "}", ";")):
        at -= 1
    return at


def module_of(at: str) -> List[str]:
    """The names of the module that a file of src/ holds."""
    return [word for word in at[4:-3].split("/") if word not in ("lib", "main", "mod")]

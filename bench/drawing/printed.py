"""Reads three-address code in its printed form, as numbers: for each instruction the number of its form, and its fields
in the order of their declaration.
"""

from __future__ import annotations

import re
from typing import Any

BASES = {"frame": 0, "scratch": 1, "program": 2}
SIGNS = {
    "operator": ["+", "-", "*", "div", "mod"],
    "bits": ["and", "or", "and not", "shift left", "plus"],
    "relation": ["=", "<>", "<", "<=", ">", ">="],
}
# of each kind of instruction its fields, and its printed form, in which words of capitals are numbers, `t` before one
# is a temporary, and small words in braces are other fields
FORMS = (
    ("TO VALUE", "VALUE -> tTO"),
    ("TO FROM", "tFROM -> tTO"),
    ("{operator} TO LEFT {right} ERROR LINE", "tLEFT {operator} {right} -> tTO, else error ERROR at line LINE"),
    ("{bits} TO LEFT {right}", "tLEFT {bits} {right} -> tTO"),
    ("{relation} TO LEFT {right}", "tLEFT {relation} {right} -> tTO"),
    ("VALUE LOW HIGH ERROR LINE", "check tVALUE in LOW..HIGH, else error ERROR at line LINE"),
    ("POINTER ERROR LINE", "check tPOINTER <> nil, else error ERROR at line LINE"),
    ("TO {list}", "text{list} -> tTO"),
    ("TO {base} BYTES EXTENT", "{base} + BYTES -> tTO, EXTENT bytes"),
    (
        "TO {base} INDEX LOW HIGH WIDTH ERROR LINE",
        "{base} + (tINDEX in LOW..HIGH) * WIDTH -> tTO, else error ERROR at line LINE",
    ),
    ("TO ROUTINE", "routine ROUTINE -> tTO"),
    ("TO {base} OFFSET", "word {base} + OFFSET -> tTO"),
    ("{base} OFFSET FROM", "tFROM -> word {base} + OFFSET"),
    ("TO {base} OFFSET", "byte {base} + OFFSET -> tTO"),
    ("{base} OFFSET FROM", "tFROM -> byte {base} + OFFSET"),
    ("FORWARD", "jump forward FORWARD"),
    ("BACK", "jump back BACK"),
    ("{relation} LEFT {right} FORWARD", "jump forward FORWARD if tLEFT {relation} {right}"),
    ("{relation} LEFT {right} BACK", "jump back BACK if tLEFT {relation} {right}"),
    ("TO ROUTINE {list} LINE", "call ROUTINE at line LINE ({list} ) -> tTO"),
    ("TO CALLEE {list} LINE", "call tCALLEE at line LINE ({list} ) -> tTO"),
    ("FROM", "return tFROM"),
    ("ERROR LINE", "error ERROR at line LINE"),
    ("TO", "take -> tTO"),
    ("FROM", "put tFROM"),
    ("TO OBJECT LINE", "new OBJECT at line LINE -> tTO"),
    ("", "end"),
)
HEAD = ("parameters", "temporaries", "frame", "scratch", "line")


def pattern(form: Any) -> Any:
    """A regular expression with a group for each field of a printed form."""
    parts = {"{right}": r"(?P<right>t?-?\d+)", "{base}": r"(?P<base>\w+)", "{list}": r"(?P<list>(?: t?\d+)*)"}
    for name, signs in SIGNS.items():
        parts[f"{{{name}}}"] = f"(?P<{name}>{'|'.join(map(re.escape, signs))})"
    text = ""
    for part in re.split(r"(\{\w+\}|[A-Z]+)", form):
        text += parts.get(part) or (rf"(?P<{part}>-?\d+)" if part.isupper() else re.escape(part))
    return re.compile(text)


PATTERNS = [(fields.split(), pattern(form)) for fields, form in FORMS]


def field(name: Any, text: Any) -> Any:
    """A field as numbers."""
    if name in SIGNS:
        return [SIGNS[name].index(text)]
    if name == "right":
        return [0, int(text[1:])] if text[0] == "t" else [1, int(text)]
    if name == "base":
        return [BASES[text]] if text in BASES else [3, int(text[1:])]
    if name == "list":
        numbers = [int(word.lstrip("t")) for word in text.split()]
        return [len(numbers), *numbers]
    return [int(text)]


def instruction(line: Any) -> Any:
    """A printed instruction as numbers."""
    for kind, (fields, form) in enumerate(PATTERNS):
        if found := form.fullmatch(line):
            return [kind, *(number for name in fields for number in field(name.strip("{}"), found[name.strip("{}")]))]
    raise ValueError(f"no instruction: {line}")


def routine(lines: Any) -> Any:
    """A routine as numbers: its counts, and its instructions."""
    counts = [int(line.removeprefix(name)) for name, line in zip(HEAD, lines)]
    body = [instruction(line.partition(": ")[2]) for line in lines[len(HEAD) :]]
    return [*counts, len(body), *(number for item in body for number in item)]


def code(lines: Any) -> Any:
    """A printed code as numbers. The head of a run-time routine is `run-time routine`, while the printed form has only
    `routine`."""
    lists, objects = {"routine": [], "run-time routine": []}, []
    for line in lines:
        if found := re.fullmatch(r"(.*routine) \d+", line):
            lists[found[1]].append([])
            last = lists[found[1]][-1]
        elif found := re.fullmatch(r"type \d+: (\d+) bytes", line):
            objects.append(int(found[1]))
        else:
            last.append(line)
    numbers = []
    for routines in lists.values():
        numbers += [len(routines), *(number for part in routines for number in routine(part))]
    return [*numbers, len(objects), *objects]

"""The cases of tests/, as the files of its folders contain them; tests/README.md describes their form."""

from __future__ import annotations

import os
import re
from dataclasses import dataclass, field
from typing import Callable, Dict, List, Optional, Tuple

TESTS = os.path.dirname(os.path.dirname(os.path.realpath(__file__)))
TOP = os.path.dirname(TESTS)
# parts of one line, and where each is kept
WORDS = {
    "words": "words",
    "input comes from": "reads_from",
    "output goes to": "writes_to",
    "messages go to": "tells_to",
    "output lists": "lists",
    "output as": "is_as",
}
NUMBERS = ("status", "room", "memory", "processor")
# parts of a conversation
SPOKEN = ("says", "says soon", "types", "leaves")
# takes a further line of a part
Taker = Callable[[bytes], None]


@dataclass
class Case:
    """One case: what is in its folder, what is run there, and what must come of it."""

    name: str
    # its file, from the top of the tree, and its line there
    place: str
    words: str = "go program.pas"
    before: List[str] = field(default_factory=list)
    files: Dict[str, bytes] = field(default_factory=dict)
    # names of links, of second names of files, and of pipes, and what they lead to
    links: Dict[str, str] = field(default_factory=dict)
    twins: Dict[str, str] = field(default_factory=dict)
    pipes: List[str] = field(default_factory=list)
    input: bytes = b""
    reads_from: Optional[str] = None
    input_fails: bool = False
    output: bytes = b""
    repeats: bytes = b""
    lists: Optional[str] = None
    is_as: Optional[str] = None
    holds: bytes = b""
    # a conversation: a word of SPOKEN, and the text
    talk: List[Tuple[str, bytes]] = field(default_factory=list)
    left: Optional[bytes] = None
    error: bytes = b""
    error_holds: bytes = b""
    status: int = 0
    writes_to: Optional[str] = None
    tells_to: Optional[str] = None
    room: Optional[int] = None
    is_stopped_by_signal: bool = False
    memory: Optional[int] = None
    processor: Optional[int] = None
    makes: Dict[str, bytes] = field(default_factory=dict)
    absent: List[str] = field(default_factory=list)
    same: List[List[str]] = field(default_factory=list)
    there: Optional[List[str]] = None


def text_of(line: str, place: str) -> bytes:
    """The bytes of a line of a part.

    `| text` ends with byte 10, `: text` does not, `x 0D 0A` gives bytes, and `9 * ` before it repeats it.
    """
    times, line = re.fullmatch(r"(?:(\d+) \* )?(.*)", line, re.S).groups()
    mark, text = line[:2], line[2:]
    if mark in ("| ", "|"):
        return int(times or 1) * (text.encode() + b"\n")
    if mark == ": ":
        return int(times or 1) * text.encode()
    if mark == "x ":
        return int(times or 1) * bytes.fromhex(text)
    raise SystemExit(f"{place}: no line of a case: {line}")


def is_text(line: str) -> bool:
    """Whether a line continues a part."""
    return line[:2] in ("| ", "|", ": ", "x ") or bool(re.match(r"\d+ \* ", line))


def cases_of(path: str) -> List[Case]:
    """The cases of a file, in their order."""
    cases: List[Case] = []
    put: Optional[Taker] = None
    with open(path, encoding="utf-8", newline="\n") as file:
        lines = file.read().split("\n")
    for number, line in enumerate(lines, 1):
        place = f"{os.path.relpath(path, TOP)}:{number}"
        if line.startswith("== "):
            cases.append(Case(line[3:].strip(), place))
            put = None
        elif line.startswith("#") or not line.strip():
            continue
        elif is_text(line) and put:
            put(text_of(line, place))
        elif cases:
            put = begun_part(cases, line, place)
        else:
            raise SystemExit(f"{place}: a line before the first case")
    return cases


def grown(case: Case, name: str) -> Taker:
    """Takes what a part of the case grows by."""

    def put(more: bytes) -> None:
        setattr(case, name, getattr(case, name) + more)

    return put


def kept(table: Dict[str, bytes], key: str) -> Taker:
    """Takes a text that is kept in a table."""
    table[key] = b""

    def put(more: bytes) -> None:
        table[key] += more

    return put


def spoken(case: Case, kind: str) -> Taker:
    """Takes the text of a further part of a conversation."""
    at = len(case.talk)
    case.talk.append((kind, b""))

    def put(more: bytes) -> None:
        case.talk[at] = (kind, case.talk[at][1] + more)

    return put


def begun_part(cases: List[Case], line: str, place: str) -> Optional[Taker]:
    """Reads a line that begins a part of the last case, or is one, and returns what takes the lines that follow."""
    case = cases[-1]
    head, _, rest = line.partition(":")
    head, rest = head.strip(), rest.strip()
    if head in SPOKEN:
        return spoken(case, head)
    if head in ("input", "output"):
        return grown(case, head)
    if head in ("output repeats", "output holds"):
        return grown(case, head[7:])
    if head == "input left":
        case.left = b""
        return grown(case, "left")
    if head == "messages":
        return grown(case, "error")
    if head == "messages hold":
        return grown(case, "error_holds")
    if head == "program":
        return kept(case.files, "program.pas")
    if head.startswith("file "):
        return kept(case.files, head[5:].strip())
    if head.startswith("makes "):
        return kept(case.makes, head[6:].strip())
    take_line(cases, head, rest, f"{place}: no part of a case: {line}")
    return None


def take_line(cases: List[Case], head: str, rest: str, fault: str) -> None:
    """Takes a part that is one line."""
    case = cases[-1]
    if head in WORDS:
        setattr(case, WORDS[head], rest)
    elif head in NUMBERS:
        setattr(case, head, int(rest))
    elif head == "before":
        case.before.append(rest)
    elif head.startswith(("link ", "second name ")):
        kind, _, name = head.rpartition(" ")
        (case.links if kind == "link" else case.twins)[name] = rest
    elif head == "pipe":
        case.pipes.append(rest)
    elif head == "room and a signal":
        case.room, case.is_stopped_by_signal = int(rest), True
    elif head == "same":
        case.same.append(rest.split())
    elif head == "files":
        case.there = sorted(rest.split())
    elif head == "as above":
        above = cases[-2]
        case.files, case.input, case.before = dict(above.files), above.input, list(above.before)
        case.links, case.twins = dict(above.links), dict(above.twins)
    elif head == "error":
        case.error = rest.encode() + b"\n"
    elif head == "input fails":
        case.input_fails = True
    elif head == "example":
        with open(os.path.join(TOP, "examples", rest), "rb") as file:
            case.files["program.pas"] = file.read()
    elif head == "absent":
        case.absent.append(rest)
    else:
        raise SystemExit(fault)


def files_of(folder: str) -> List[str]:
    """The files of cases in a folder of tests/."""
    return [f"{TESTS}/{folder}/{name}" for name in sorted(os.listdir(f"{TESTS}/{folder}")) if name.endswith(".txt")]

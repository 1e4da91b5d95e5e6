"""What editors make of `pascal check`: the places that vim and emacs find in its messages, and the objects of
`--json`; tests/README.md describes them.
"""

from __future__ import annotations

import json
import re
import subprocess
from typing import Dict, Iterator, List, Optional, Tuple

import runs
from cases import cases_of, files_of
from explained import Trial

HERE = "tests/driver/editors.py"
# `%f:%l:%c:%m`, which is part of vim's own errorformat; `%f` is as short as what follows allows
VIM = re.compile(r"(?P<file>.+?):(?P<line>\d+):(?P<column>\d+):(?P<text>.+)")
# `gnu` of emacs' own compilation-error-regexp-alist-alist: [PROGRAM:]FILE:LINE:COLUMN: error, warning or another text
EMACS = re.compile(
    r"(?:[A-Za-z][-A-Za-z0-9.]+: ?|[ ]+\|)?"
    r"(?P<file>(?:[^0-9\n\t ]|[0-9]+[^0-9\n])(?:[^\n :]| [^-/\n]|:[^ \n])*?)(?:: ?)"
    r"(?P<line>[0-9]+)(?:-[0-9]+(?:\.[0-9]+)?|[.:](?P<column>[0-9]+)(?:-(?:[0-9]+\.)?[0-9]+)?)?:"
    r"(?: *(?:FutureWarning|RuntimeWarning|Warning|warning|W:)| *(?:[Ii]nfo(?:\b|rmationa?l?)|I:|[Nn]ote)| "
    r"*[Ee]rror|[0-9]?(?:[^0-9\n]|$)|[0-9][0-9][0-9])"
)
# what a message begins with
FIRST = re.compile(r"(?P<file>.+):(?P<line>\d+):(?P<column>\d+): (?:error|warning) \d+ [A-Z]\w+: .+")
KEYS = {
    "file": str,
    "from": int,
    "to": int,
    "line": int,
    "column": int,
    "severity": str,
    "number": int,
    "name": str,
    "text": str,
    "notes": list,
    "helps": list, "expected": list, "mends": list,
}  # fmt: skip
WITHOUT_PLACE = {"from", "to", "line", "column"}

BODY = b"program p(output);\nbegin\n  %s\nend.\n"
LONG = 1_000_000
# texts that are refused, each in one way or another, and how their lines are
ODD: Dict[str, bytes] = {
    "no bytes": b"",
    "an end of a line": b"\n",
    "no end of the last line": b"program p;\nbegin\n  x := 1\nend.",
    "bytes that are no UTF-8": BODY % b"writeln('\xff\xfe', \xe9)",
    "a character that is cut off": BODY % b"writeln('a'); \xe2\x82",
    "bytes 0": BODY % b"writeln('a\x00b'); \x00",
    "bytes 0 alone": b"\x00\x00\x00",
    "other control characters": BODY % b"writeln('a\x01\x1b[31m\x7f', \x0b)",
    "tabs": b"program p(output);\nbegin\n\t\tx\t:=\ty;\n\twriteln('a\tb' 1)\nend.\n",
    "ends of lines of two bytes": b"program p(output);\r\nbegin\r\n  x := 1;\r\n  y := 2\r\nend.\r\n",
    "ends of lines of one byte 13": b"program p(output);\rbegin\r  x := 1\rend.\r",
    "quotes and backslashes": BODY % b'writeln("a\\b\\"); x := \\',
    "a byte order mark": b"\xef\xbb\xbf" + BODY % b"writeln(1)",
    "wide characters": "program p(output);\nbegin\n  writeln('\U0001f600 日本', ü)\nend.\n".encode(),
    "a long line": b"program p(output); begin writeln(1" + LONG * b" " + b"2) end.",
    "a long name": BODY % (LONG * b"x" + b" := 1"),
    "a long string": BODY % (b"writeln('" + LONG * b"a" + b")"),
    "a long comment": b"program p;" + b"{" + LONG * b"-" + b"begin end.",
    "many lines": b"program p;\n" + 70_000 * b"\n" + b"begin end.",
    "too long": b" " * 1_100_000,
    "a warning": b"program p(output);\nvar i: integer;\nbegin\n  i := 1;\n  if i > 0 then;\n    writeln(i)\nend.\n",
    "all bytes": bytes(range(256)),
    "all bytes in a string": BODY % (
        b"writeln('" + bytes(byte for byte in range(256) if byte not in b"\n'") + b"', 1 2)"
    ),
}


def ran(program: str, words: List[str], text: bytes) -> subprocess.CompletedProcess:
    """Runs `check` with these words on standard input."""
    how = {"env": runs.environment(), "timeout": runs.SECONDS, "input": text}
    return subprocess.run([program, "check", *words], capture_output=True, **how)


# ---- what is shown


def places_shown(shown: str) -> List[Tuple[str, str, str]]:
    """The file, the line and the column of each message."""
    return [found.group("file", "line", "column") for found in map(FIRST.fullmatch, shown.split("\n")) if found]


def found_by(pattern: re.Pattern, shown: str) -> List[Tuple[Optional[str], ...]]:
    """What an editor finds in what is shown."""
    return [found.group("file", "line", "column") for found in map(pattern.match, shown.split("\n")) if found]


def jumps(pattern: re.Pattern) -> List[str]:
    """An editor finds the place of each expected message, and no other."""
    wrong = []
    for path in files_of("messages"):
        for case in cases_of(path):
            shown = case.error.decode()
            if places_shown(shown) != found_by(pattern, shown):
                wrong.append(f"{case.place}: found {found_by(pattern, shown)}, told {places_shown(shown)}")
    return wrong


# ---- objects


def offset_of(text: bytes, line: int, column: int) -> int:
    """The offset of a line and a column of a text."""
    return sum(len(each) + 1 for each in text.split(b"\n")[: line - 1]) + column - 1


def faults_of_place(told: Dict, text: bytes) -> List[str]:
    """What is wrong with a reported place."""
    if not 0 <= told["from"] <= told["to"] <= len(text):
        return [f"{told['from']} to {told['to']} is no span of the text"]
    if offset_of(text, told["line"], told["column"]) != told["from"]:
        return [f"line {told['line']}, column {told['column']} is not offset {told['from']}"]
    return []


def changed(text: bytes, edits: List[Dict]) -> bytes:
    """A text with edits."""
    for edit in sorted(edits, key=lambda edit: edit["from"], reverse=True):
        text = text[: edit["from"]] + edit["put"].encode() + text[edit["to"] :]
    return text


def faults_of_mend(mend: Dict, text: bytes, program: str) -> List[str]:
    """What is wrong with a change that was tried: the text that it makes must be accepted exactly if the message says
    so."""
    is_accepted = not ran(program, ["-"], changed(text, mend["edits"])).returncode
    return [] if is_accepted == mend["accepted"] else [f"{mend['text']}: accepted is {is_accepted}"]


def faults_of_object(told: Dict, text: bytes, program: str) -> List[str]:
    """What is wrong of an object of JSON."""
    keys = set(KEYS) if "from" in told else set(KEYS) - WITHOUT_PLACE
    if set(told) != keys or any(not isinstance(told[key], KEYS[key]) for key in keys):
        return [f"the object is {told}"]
    wrong = faults_of_place(told, text) if "from" in told else []
    for note in told["notes"]:
        wrong += faults_of_place(note, text)
    for mend in told["mends"]:
        wrong += faults_of_mend(mend, text, program)
    return wrong


def objects_hold(text: bytes, program: str) -> List[str]:
    """Each line that `check --json` writes for a text is an object whose places and changes are right, and the status
    says whether the text is accepted."""
    run = ran(program, ["--json", "-"], text)
    told = [json.loads(line) for line in run.stdout.decode().splitlines()]
    errors = [each for each in told if each["severity"] == "error"]
    wrong = [] if run.returncode == (1 if errors else 0) else [f"status {run.returncode} with {len(errors)} errors"]
    wrong += [f"standard error is {run.stderr[:80]!r}"] if run.stderr else []
    for each in told:
        wrong += faults_of_object(each, text, program)
    return wrong


def shown_as_told(text: bytes, program: str) -> List[str]:
    """What is shown for a text is UTF-8, and has the same messages as the objects."""
    run, told = ran(program, ["-"], text), ran(program, ["--json", "-"], text)
    try:
        shown = run.stderr.decode()
    except UnicodeDecodeError as fault:
        return [f"{fault}"]
    places = [
        (str(each["line"]), str(each["column"]))
        for each in map(json.loads, told.stdout.decode().splitlines())
        if "line" in each
    ]
    came = [(line, column) for _, line, column in places_shown(shown)]
    wrong = [] if came == places else [f"shown at {came}, told at {places}"]
    return wrong + (
        [] if run.returncode == told.returncode else [f"status {run.returncode}, and {told.returncode} with --json"]
    )


# ---- all that is to be tried


def trials(program: str) -> Iterator[Trial]:
    """What is tried over a program."""
    yield Trial("vim finds each place", HERE, lambda: jumps(VIM))
    yield Trial("emacs finds each place", HERE, lambda: jumps(EMACS))
    for name, text in ODD.items():
        yield Trial(f"objects: {name}", HERE, lambda text=text: objects_hold(text, program))
        yield Trial(f"shown: {name}", HERE, lambda text=text: shown_as_told(text, program))

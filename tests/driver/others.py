"""Cases made from docs/OTHER_PASCALS.md: each row's text is refused at its word, and what the row says to write instead
is accepted.
"""

from __future__ import annotations

import re
import subprocess
import tempfile
from dataclasses import dataclass
from typing import Iterator, List, Match, Optional, Set, Tuple

import runs
from explained import Trial, text_of

TABLE = "docs/OTHER_PASCALS.md"
DOTS = ".."
CELL = re.compile(r"(?<!\\)\|")
TOKEN = r"'(?:[^'\n]|'')*'|[A-Za-z][A-Za-z0-9]*|[0-9]+|:=|<>|<=|>=|\.\.|\S"
# names that an example may have besides those of its program
FREE_NAMES = {"name", "pascal"}


@dataclass
class Row:
    """A row, with the program of its part."""

    frame: str
    line: int
    # what the innermost open construction begins with, the tokens, and whether the token after them counts too
    within: str
    word: List[str]
    and_behind: bool
    of: str
    there: str
    number: Optional[int]
    here: str
    # what the word is replaced by, if that is all
    mend: Optional[str]
    advice: str

    @property
    def place(self) -> str:
        """The place of the row, as failures name it."""
        return f"{TABLE}:{self.line}"

    def program(self, text: str) -> str:
        """The program of the part, with a text instead of its dots."""
        return re.sub(r"(?<!\S)\.\.(?!\S)|(?<=\()\.\.(?=\))", lambda _: text, self.frame, count=1)


def code(cell: str) -> str:
    """The text between backticks in a cell."""
    return cell.strip().strip("`").replace("\\|", "|")


def row_of(frame: str, line: int, text: str) -> Row:
    """Reads a row of the table."""
    cells = [word.strip() for word in CELL.split(text)[1:-1]]
    if len(cells) != 7:
        raise SystemExit(f"{TABLE}:{line}: no row of seven cells")
    within, word = re.fullmatch(r"(?:([a-z]+): )?(.+)", code(cells[0])).groups()
    and_behind = word.endswith(f" {DOTS}")
    tokens = re.findall(TOKEN, word[: -len(DOTS)] if and_behind else word)
    number = int(cells[3]) if cells[3] else None
    mend = code(cells[5]) if cells[5].startswith("`") else "" if cells[5] else None
    words = (within or "", tokens, and_behind, cells[1])
    return Row(frame, line, *words, code(cells[2]), number, code(cells[4]), mend, cells[6])


def rows() -> List[Row]:
    """The rows of all parts."""
    found: List[Row] = []
    frame: List[str] = []
    for number, line in enumerate(text_of(TABLE).split("\n"), 1):
        if line.startswith("## "):
            frame = []
        elif line.startswith("    "):
            frame.append(line[4:])
        elif line.startswith("| `"):
            found.append(row_of("\n".join([*frame, ""]), number, line))
    return found


# ---- what is refused there


def found_in(row: Row) -> Optional[Match[str]]:
    """Where the word is in what was written, with the token after it."""
    inner = r"\s*".join(re.escape(token) for token in row.word)
    if row.word[0][0].isalpha():
        inner = rf"(?<![A-Za-z0-9]){inner}"
    if row.word[-1][-1].isalnum():
        inner = rf"{inner}(?![A-Za-z0-9])"
    return re.search(rf"({inner})\s*({TOKEN})?", row.there, re.I)


def apart(row: Row, found: Match[str]) -> Tuple[str, int, int]:
    """The program with what was written, its word on a line of its own, and the token after it too; and these two
    lines."""
    before, behind = row.there[: found.start()], row.there[found.end() :]
    text = row.program(f"{before}\n{found[1]}\n{found[2] or ''}\n{behind}")
    line = row.program(f"{before}\n\0").split("\0")[0].count("\n") + 1
    return text, line, line + 1


def said_of(program: str, text: str) -> str:
    """What is reported of a text that is compiled; nothing if it is accepted."""
    with tempfile.TemporaryDirectory(prefix="others-") as folder:
        with open(f"{folder}/program.pas", "w", encoding="utf-8") as file:
            file.write(text)
        words = [program, "compile", "program.pas", "out.img"]
        how = {"env": runs.environment(), "stdin": subprocess.DEVNULL, "capture_output": True, "timeout": runs.SECONDS}
        return subprocess.run(words, cwd=folder, check=False, **how).stderr.decode().strip()


def faults_there(row: Row, program: str) -> List[str]:
    """What is not as the row says of the text that is there."""
    if row.number is None:
        said = said_of(program, row.program(row.there))
        return [f"refused, and no number is told: {said}"] if said else []
    word = found_in(row)
    if not word:
        return [f"the word does not stand in {row.there}"]
    text, at, behind = apart(row, word)
    found = re.fullmatch(r"refused at line (\d+): (\d+) \w+", said_of(program, text))
    if not found:
        return ["it is accepted"]
    wanted = [at, behind] if row.and_behind else [at]
    wrong = [] if int(found[1]) in wanted else [f"{found[0]}, in {text!r}, and the word stands at {at}"]
    return wrong + ([] if int(found[2]) == row.number else [f"{found[0]}, wanted was {row.number}"])


# ---- what is to be written here


def names_that_there_are() -> Set[str]:
    """The word-symbols and the required names in docs/LANGUAGE.md and docs/REFUSALS.md."""
    language = text_of("docs/LANGUAGE.md")
    words = re.search(r"(?s)Word-symbols: (.*?)\.\n", language)[1].split()
    required = re.search(r"(?s)## Required routines.*?## Text", language)[0] + "integer maxint char Boolean false true"
    return {word.lower() for word in words + re.findall(r"[a-zA-Z]+", required)} | {
        "write", "writeln", "input", "output"
    }


def names_in(text: str) -> Set[str]:
    """The names and word-symbols of a piece of a program."""
    return {
        token.lower() for token in re.findall(TOKEN, text) if token[0].isalpha() and len(token) > 1 or token.isalpha()
    }


def faults_of_names(row: Row) -> List[str]:
    """What the advice names that there isn't."""
    known = names_that_there_are() | FREE_NAMES | names_in(row.frame) | {token.lower() for token in row.word}
    pieces = [piece for piece in re.findall(r"`([^`]+)`", row.advice) if not piece.startswith("pascal ")]
    others = {name for piece in pieces for name in names_in(piece)} - known - names_in(row.here)
    return [f"the advice names {other}" for other in sorted(others)]


def faults_of_mend(row: Row, program: str) -> List[str]:
    """What is said of the text in which the word is exchanged."""
    word = found_in(row)
    if row.mend is None or not word:
        return []
    text = f"{row.there[: word.start(1)]}{row.mend} {row.there[word.end(1) :]}"
    said = said_of(program, row.program(text))
    return [f"what is mended is refused: {said}: {text}"] if said else []


def faults_of(row: Row, program: str) -> List[str]:
    """What is wrong with a row."""
    said = said_of(program, row.program(row.here))
    wrong = [f"what is to be written is refused: {said}"] if said else []
    wrong += faults_of_mend(row, program)
    wrong += [f"`{row.within}` does not stand there"] if row.within and row.within not in names_in(row.there) else []
    return faults_there(row, program) + wrong + faults_of_names(row)


def trials(program: str) -> Iterator[Trial]:
    """Each row as something to be tried."""
    for row in rows():
        yield Trial(" ".join(row.word), row.place, lambda row=row: faults_of(row, program))

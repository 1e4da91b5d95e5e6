"""What a check said of the given functions: which it refuses, and why."""

import re
import subprocess
from typing import Any, Dict, Iterator, List, Optional, Tuple

import kit
from functions import Function, functions_of, module_of
from stubs import Place, Texts

# what a check ran to
Ran = subprocess.CompletedProcess
# what the kit says of a proof that names what an edit took away, and of what rests on that
TAKEN_AWAY = r"has no field|is not in scope|has no `|was not admitted"
# and of what is refused only for what it rests on
OF_OTHERS = r"which (?:is|are|was|were) not (?:proved|admitted)"
PLACE = re.compile(r"(?:(?:note|warning): )?(?:\./)?(src/\S+?\.rt):(\d+):\d+: (.*)")
# what is said against a text
FAULT = re.compile(r"(note: )?(\./)?(src|specs|proofs)/\S+:\d+:\d+: (error|it is not proved)")


def refused_at(said: str, texts: Texts, crate: Any) -> Dict[Place, str]:
    """The places of functions that a check refuses for themselves, with what it said, from its output."""
    rt, found = kit.rt(), {}
    spans = {at: functions_of(text) for at, text in texts.items()}
    for line in said.split("\n"):
        place = PLACE.match(line)
        if (
            not place
            or rt.unread(line, texts)
            or not re.search(r"not proved|error: ", place[3])
            or re.search(OF_OTHERS, place[3])
        ):
            continue
        for function in spans.get(place[1], []):
            if function.top <= int(place[2]) - 1 <= function.last:
                found.setdefault((place[1], function.name, function.owner), line)
    for name, of in by_proof_files(said, spans):
        found.setdefault(of, f"the answers of {name} are refused")
    return found


def by_proof_files(said: str, spans: Dict[str, List[Function]]) -> Iterator[Tuple[str, Place]]:
    """The functions whose own answers or lemmas in proofs/ are refused: those of a function are in a folder of its
    path, and those of a cycle in a folder of their own, each answer with the name of its function."""
    error = r"[A-Z]\w+\.antt:\d+:\d+: error: (?!.*(?:is not in scope|has no|was not admitted))"
    refused = re.findall(rf"(?m)^(?:\./)?proofs/(\S+)/{error}(?:`((?:\w+::)*\w+)-)?", said)
    for path, member in dict.fromkeys(refused):
        *above, last = path.split("/")
        of = [
            (at, function)
            for at, functions in spans.items()
            for function in functions
            if names_match(at, function, above, last, member)
        ]
        if len(of) == 1:
            yield path, (of[0][0], of[0][1].name, of[0][1].owner)


def names_match(at: str, function: Function, above: List[str], last: str, member: str) -> bool:
    """Whether a folder of proofs/ is a function's: by its whole path, or, in a cycle, by that of its member before its
    answers' names. (A method is below its type's module, which may be another than its file's.)"""
    path = [*above, *(member.split("::") if last.startswith("+") else [last])]
    own = [function.owner, function.name] if function.owner else [function.name]
    return path == [*module_of(at), *own] or bool(function.owner) and path[-2:] == own


def told_something(said: Ran) -> bool:
    """Whether a check of functions came to an end, and did not prove all."""
    if said.returncode == 1 and re.match(r"only=\d+", last_line(said)):
        return True
    print(f"a check of edits told nothing: {said.stdout[-400:]}", flush=True)
    return False


def is_proved(said: Ran, crate: Any, name: Optional[str]) -> bool:
    """Whether a check says that a function is proved."""
    return f"fn {crate.name}::{name}: proved\n" in said.stdout


def unproved(said: Ran, crate: Any, name: str) -> Optional[str]:
    """The line that says that no proof of a function was found, if the check says nothing more of it, or None."""
    return next(
        (line for line in said.stdout.split("\n") if line.startswith(f"fn {crate.name}::{name}: no proof: expected ")),
        None,
    )


def is_refused(said: Ran, crate: Any, name: str) -> bool:
    """Whether a check says that it found no proof of a function."""
    return bool(re.search(rf"(?m)^fn {re.escape(crate.name)}::{re.escape(name)}: (not proved|no proof)", said.stdout))


def last_line(ran: Ran) -> str:
    """The last line that a run wrote."""
    return ran.stdout.rstrip("\n").split("\n")[-1]


def refused_for(ran: Ran, texts: Texts, otherwise: List[str]) -> Optional[str]:
    """Why a check refuses these texts, by its errors, or by these lines if it has none; None if it can't read them,
    says nothing, or refuses only what names what an edit removed."""
    lines = ran.stdout.split("\n")
    if ran.returncode != 1 or any(kit.rt().unread(line, texts) for line in lines):
        return None
    errors = [line for line in lines if FAULT.match(line)]
    return next((line for line in errors or otherwise if not re.search(TAKEN_AWAY, line)), None)


def is_proved_whole(said: Ran) -> bool:
    """Whether a check says that all functions of a copy are proved, and nothing against any other text of it."""
    lines = said.stdout.split("\n")
    functions = [line for line in lines if line.startswith("fn ")]
    return (
        bool(functions)
        and all(re.search(r": (proved|assumed)\b", line) for line in functions)
        and not any(FAULT.match(line) for line in lines)
    )

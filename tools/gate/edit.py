"""A must-fail edit: what it changes, and which of several can be made in one copy."""

import os
import re
from typing import Any, Iterable, List, Optional, Set, Tuple

import stubs
import verdicts
from functions import Function, functions_of, module_of
from stubs import Place, Texts


def puts_body(text: str, function: Function, old: str, new: str) -> bool:
    """Whether a new text for a function's header continues with the function's own clauses and another body, and then
    gives what followed the header to a function of another name."""
    lines = text.split("\n")
    clauses = " ".join(" ".join(lines[function.header + 1 : function.body]).split())
    rest = lines[function.header].split(f"fn {function.name}", 1)[1]
    begun = " ".join(part for part in (old.strip(), clauses, "{") if part)
    given = re.fullmatch(rf"{re.escape(begun)}(.*)\}} fn \w+{re.escape(rest)}", new.strip())
    return bool(given) and lines[function.header].endswith(old.strip()) and given[1].count("{") == given[1].count("}")


class Edit:
    """A must-fail edit: the pairs of texts that it changes, with the file of each; the function at which it must fail,
    if a line `at:` names one; the places of the functions whose bodies it changes, if it changes nothing else; and the
    names of the functions at which it can be tried, if there are any."""

    def __init__(self, path: str, crate: Any) -> None:
        self.path, self.name = path, os.path.basename(path)
        with open(path, encoding="utf-8", errors="replace") as file:
            self.text = file.read()
        self.pairs, self.at, at, old = [], None, "", None
        for line in self.text.split("\n"):
            if line.startswith("file: "):
                at = line[6:].strip()
            elif line.startswith("at: "):
                self.at = line[4:].strip()
            elif line.startswith("old: "):
                old = line[5:]
            elif line.startswith("new:"):
                self.pairs.append((at, old, re.sub(r"\A ", "", line[4:])))
        self.places = self.find(crate)
        self.names = names_of(self.places, verdicts.facts_of(crate).get("functions", [])) if self.places else None
        if self.names is None:
            self.places, self.names = None, [self.at] if self.at else None

    def find(self, crate: Any) -> Optional[Set[Place]]:
        """The functions whose bodies the edit changes, as (file, name, type), or None if it changes anything else."""
        places = set()
        for at, old, new in self.pairs:
            try:
                with open(f"{crate.folder}/{at}", encoding="utf-8") as file:
                    text = file.read()
            except OSError:
                return None
            line = text[: text.find(old)].count("\n") if old and old in text else -1
            functions = functions_of(text)
            inside = [
                function for function in functions if function.body <= line <= function.last and line != function.header
            ]
            inside += [
                function for function in functions if line == function.header and puts_body(text, function, old, new)
            ]
            if not at.startswith("src/") or len(inside) != 1:
                return None
            places.add((at, inside[0].name, inside[0].owner))
        return places

    def apply(self, texts: Texts, crate: Any) -> Optional[Texts]:
        """The texts with this edit made in them, or None if an old text doesn't occur exactly once."""
        made = dict(texts)
        for at, old, new in self.pairs:
            if at not in made:
                with open(f"{crate.folder}/{at}", encoding="utf-8") as file:
                    made[at] = file.read()
            if made[at].count(old) != 1:
                return None
            made[at] = made[at].replace(old, new)
        return made


def names_of(places: Iterable[Place], functions: List[str]) -> Optional[List[str]]:
    """The names that a check uses for functions at these places, or None if a name fits none, or several. A method has
    its type's module, which may be another than its file's, and, if it is a trait's, the trait's name after the
    type's."""
    found = []
    for at, name, owner in places:
        wanted = "::".join([*module_of(at), *([owner] if owner else []), name])
        alike = [function for function in functions if function == wanted]
        if owner and not alike:
            alike = [function for function in functions if re.fullmatch(rf"(.*::)?{owner}::{name}", function)]
            alike = (
                alike or [function for function in functions if re.fullmatch(rf"(.*::)?{owner}\w+::{name}", function)]
            )
            beside = [name for name in alike if name.split("::")[:-2] == module_of(at)]
            alike = beside if len(alike) > 1 else alike
        if len(alike) != 1:
            return None
        found += alike
    return found


def side_by_side(edits: Iterable[Edit], crate: Any) -> Tuple[List[Edit], Texts]:
    """As many of the edits as can be made in one copy, and the texts of that copy: no edit that names the function at
    which it must fail, no two of one function, none of a function that another edit's function calls, and each old text
    must still occur exactly once."""
    group, texts, taken, sources = [], {}, set(), stubs.texts_of(crate)
    for edit in edits:
        if (
            edit.places is None
            or edit.at
            or edit.places & taken
            or any(calls(other, edit, sources) or calls(edit, other, sources) for other in group)
        ):
            continue
        made = edit.apply(texts, crate)
        if made is not None:
            group.append(edit)
            texts, taken = made, taken | edit.places
    return group, texts


def calls(one: Edit, other: Edit, sources: Texts) -> bool:
    """Whether a function that an edit changes, or one in a cycle of calls with it, seems to call one that another
    changes, which is in no cycle with it."""
    cycles = stubs.cycles_of(sources, one.places) & stubs.cycles_of(sources, other.places)
    return (
        not cycles
        and any(stubs.names(text, place) for text in stubs.bodies_of(sources, one.places) for place in other.places)
    )


def names_in(edit: Edit) -> List[str]:
    """The functions at which an edit is tried by itself."""
    return [edit.at] if edit.at else edit.names or []

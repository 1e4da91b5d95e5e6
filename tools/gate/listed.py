"""The list of must-fail edits that a release saw refused, and which edits a run tries.

A row of released/edits names a kit, an edit, and the sum of what decides its trial: its own text, its crate's sources
and row of crates.txt, and the statements of the libraries below (statements.py). A run tries the edits that have no
such row of its kit, and of the others every eighth, by the sum of the tree. The list says only which trials to repeat:
one that is damaged counts as empty. `./gate --release` writes it, from trials that the same run saw refused.
"""

import os
import time
from typing import Dict, Iterable, List, NamedTuple, Set, Tuple

import kit
import statements
import verdicts

NAME = "released/edits"
EACH = 8
# how the result of an edit is known: this run tried it, the store knew its trial, or it stands by the list
TRIED, KEPT, STANDS = "tried", "kept", "stands"
# an edit: the names of its crate and of its file
Named = Tuple[str, str]


class Trial(NamedTuple):
    """What came of an edit: whether it is refused, what to say, and how that is known."""

    is_refused: bool
    said: str
    how: str = TRIED


class Row(NamedTuple):
    """A row of the list."""

    kit: str
    sum: str
    crate: str
    edit: str


def kit_name() -> str:
    """What a row calls the kit: its name, and a part of its sum."""
    return f"{kit.name().partition(' ')[0]}.{kit.kit_sum()[:16]}"


def sums_of(tree: str) -> Dict[Named, str]:
    """The sums of the edits of a tree, by their names, in the order of these."""
    crates = sorted(kit.rt().rtlib.crates_below(tree), key=lambda crate: crate.name)
    edits = {
        crate.name: {os.path.basename(path): statements.text_of(path) for path in sorted(kit.rt().edits_of(crate)[0])}
        for crate in crates
    }
    sources = statements.Sources(tree, crates, edits)
    return {
        (crate.name, name): kit.sum_of(verdicts.FORM, sources.decides(crate), name, text)[:32]
        for crate in crates
        for name, text in edits[crate.name].items()
    }


def head_of(text: str) -> str:
    """The first line of a list, by which one that was cut or changed is known."""
    return f"edits that a release saw refused; the sum of their rows is {kit.sum_of(text)}"


def read(path: str) -> Set[Row]:
    """The rows of a list. Of one that is not as a release wrote it there are none, and a line says so."""
    try:
        with open(path, encoding="utf-8") as file:
            head, _, text = file.read().partition("\n")
    except FileNotFoundError:
        print(f"gate: there is no {NAME}, so all edits are tried: `./gate --release` writes it", flush=True)
        return set()
    except (OSError, ValueError):
        head, text = "", ""
    rows = [line.split(" ") for line in text.splitlines()]
    if head != head_of(text) or any(len(row) != len(Row._fields) for row in rows):
        why = "is not as a release wrote it, so all edits are tried: `./gate --release` mends it"
        print(f"gate: {NAME} {why}", flush=True)
        return set()
    return {Row(*row) for row in rows}


def write(path: str, rows: Iterable[Row]) -> None:
    """Writes a list, whole or not at all."""
    text = "".join(f"{' '.join(row)}\n" for row in sorted(rows, key=lambda row: (row.crate, row.edit, row)))
    os.makedirs(os.path.dirname(path), exist_ok=True)
    with open(f"{path}.new", "w", encoding="utf-8") as file:
        file.write(f"{head_of(text)}\n{text}")
    os.replace(f"{path}.new", path)


class Choice:
    """The edits of a tree by their sums, the rows of the list that stand, and what came of each edit in this run."""

    def __init__(
        self,
        sums: Dict[Named, str],
        rows: Iterable[Row],
        kit_named: str,
        tries_all: bool = False,
        releases: bool = False,
    ) -> None:
        self.sums, self.kit, self.tries_all, self.releases = sums, kit_named, tries_all, releases
        # (rows of other kits, too, since a release keeps them)
        self.rows = {row for row in rows if sums.get((row.crate, row.edit)) == row.sum}
        self.listed = {(row.crate, row.edit) for row in self.rows if row.kit == kit_named}
        self.tree, self.place = int(kit.sum_of(*sums.values()), 16), {edit: place for place, edit in enumerate(sums)}
        self.came, self.seconds = {}, 0.0

    def is_due(self, edit: Named) -> bool:
        """Whether an edit is tried although it may stand: one in eight, by the sum of the tree."""
        return self.tries_all or (self.tree + self.place[edit]) % EACH == 0

    def stands(self, edit: Named) -> bool:
        """Whether an edit stands by the list, and this run need not try it."""
        return edit in self.listed and not self.is_due(edit)

    def left(self) -> List[Named]:
        """The edits that do not stand."""
        return [edit for edit in self.sums if not self.stands(edit)]

    def takes_kept(self, edit: Named) -> bool:
        """Whether a trial by an earlier run is enough: not for a row that this run is to write."""
        return not self.releases or edit in self.listed

    def note(self, crate: str, paths: List[str], trials: Iterable[Trial]) -> None:
        """Notes what came of the edits of a crate."""
        self.came.update(((crate, os.path.basename(path)), trial) for path, trial in zip(paths, trials))

    def count(self, how: str) -> int:
        """How many edits are refused, as is known in a way."""
        return sum(trial.is_refused and trial.how == how for trial in self.came.values())

    def new_rows(self) -> Set[Row]:
        """The rows that stand, and those of the edits that this run tried and saw refused."""
        seen = {edit for edit, trial in self.came.items() if trial.is_refused and trial.how == TRIED}
        return self.rows | {Row(self.kit, self.sums[edit], *edit) for edit in seen if edit in self.sums}

    def tell(self, seconds: float) -> None:
        """Prints how many edits were tried and how many stand, and what both took; and what the list is wrong about."""
        print(
            f"edits: {self.count(TRIED)} tried in {seconds:.0f} processor seconds, {self.count(KEPT)} known to the "
            f"store, {self.count(STANDS)} stand by {NAME}, which took {self.seconds:.0f} to see",
            flush=True,
        )
        wrong = [edit for edit, trial in self.came.items() if edit in self.listed and not trial.is_refused]
        if wrong:
            names = ", ".join("/".join(edit) for edit in wrong)
            print(f"gate: {NAME} has what is not refused ({names}): remove it, so that all edits are tried", flush=True)


# the choice of this run; before it is made, one by which all edits are tried
choice = Choice({}, (), "")


def choose(tree: str, tries_all: bool, releases: bool) -> Choice:
    """The choice for a tree."""
    global choice
    began = time.process_time()
    choice = Choice(sums_of(tree), read(f"{tree}/{NAME}"), kit_name(), tries_all, releases)
    choice.seconds = time.process_time() - began
    return choice

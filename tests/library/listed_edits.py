"""Conditions for tests/store: which must-fail edits a run tries, and which stand by the list of a release."""

from __future__ import annotations

import contextlib
import io
import os
import re
import shutil
from typing import Callable, Optional, Set

import kit
import listed
from small_tree import Small, cut, edit, write, wrong

# the lower crate with a constant function, a definition and lemmas, and a library over it
LOWER = {
    "src/lib.rt": """//! A library with functions.
#![tactic(auto)]

ghost use Rattle.std.specs.Prelude.{◌≡◌};
ghost use Rattle.low.specs.Twice.{twice};

/// The same number.
pub fn same(x: usize) -> usize
    ensures { result ≡ x }
{
    x
}

/// Twice a number, for constants.
pub const fn doubled(x: usize) -> usize {
    x + x
}

const MOST: usize = 7;
const SHOWN: usize = 8;
/// The most that there are.
pub const LIMIT: usize = MOST;

impl Plain {
    /// What it holds.
    pub fn held(&self) -> usize {
        helper(11)
    }
}

impl<T: Into<Option<u8>>> Weighed<T> for Holder<T> {
    fn weight(&self) -> usize
        ensures { result ≡ 9 }
    {
        9
    }
}

/// What has a size.
pub trait Size<T> {
    /// The size.
    fn size(&self) -> usize;

    /// The size of two.
    fn size_of_two(&self) -> usize {
        self.size() + self.size()
    }
}

/// A step.
pub fn step() -> impl Fn(usize) -> usize {
    |n| n + 10
}

fn helper(x: usize) -> usize
    ensures { result ≡ x }
    ensures { x ≡ result }
{
    x
}
""",
    "src/more.rt": """ghost use Rattle.std.specs.Prelude.{◌≡◌};

use crate::same;

/// The same number.
pub fn more(x: usize) -> usize
    ensures { result ≡ x }
{
    same(x)
}
""",
    "specs/Twice.antt": """-- twice a number
use Rattle.std.specs.Prelude.{ℕ, ◌+◌}

abbrev pub twice : ℕ → ℕ
twice n = n + n
""",
    "proofs/Laws.antt": """-- what others need
use Rattle.std.proofs.Common.{◌≡◌, ◌≤◌, ℕ, ◌+◌, arith}
use Rattle.low.specs.Twice.{twice}

abbrev pub thrice : ℕ → ℕ
thrice n = n + twice n

grows_at : (n : ℕ) → n ≤ n + n
grows_at n = omega arith

pub grows : (n : ℕ) → n ≤ twice n
grows n = grows_at n
""",
    "proofs/Own.antt": """use Rattle.std.proofs.Common.{◌≡◌, ℕ, refl}

pub alike : (n : ℕ) → n ≡ n
alike n = refl
""",
}
MIDDLE = {
    "src/lib.rt": """//! A library over another.
#![tactic(auto)]

ghost use Rattle.std.specs.Prelude.{◌≡◌};

/// The same number.
pub fn again(y: usize) -> usize
    ensures { result ≡ y }
{
    low::same(y)
}
""",
    "proofs/Cites.antt": """use Rattle.std.proofs.Common.{◌≤◌, ℕ}
use Rattle.low.specs.Twice.{twice}
use Rattle.low.proofs.Laws.{grows}

pub grows_here : (n : ℕ) → n ≤ twice n
grows_here n = grows n
""",
    "must-fail/middle.edit": "file: src/lib.rt\nold:     low::same(y)\nnew:     0\n",
}
LOW, MIDDLE_EDIT, PROGRAM = ("low", "another.edit"), ("mid", "middle.edit"), ("pascal", "program.edit")
UNNAMED = """fn unnamed() {
    helper(12)
}

"""
# what changes with a statement of the lower crate, and with anything else in it
ALL_THREE, NOT_ABOVE = {LOW, MIDDLE_EDIT, PROGRAM}, {LOW, PROGRAM}
# a change: a file, a text in it, and the new one; and the edits whose sums it changes
CHANGES = (
    ("the body of a function below", "low/src/lib.rt", "\n    x\n", "\n    x + 0\n", NOT_ABOVE),
    ("a comment below", "low/src/lib.rt", "The same number", "This very number", NOT_ABOVE),
    ("a lemma's proof below", "low/proofs/Laws.antt", "grows n = grows_at n", "grows n = omega arith", NOT_ABOVE),
    ("a lemma for proofs below", "low/proofs/Laws.antt", "(n : ℕ) → n ≤ n + n", "(n : ℕ) → n + 0 ≤ n + n", NOT_ABOVE),
    ("an import for proofs below", "low/proofs/Laws.antt", ", arith}", ", arith, refl}", NOT_ABOVE),
    ("a lemma below that nothing above names", "low/proofs/Own.antt", "n ≡ n", "n + 0 ≡ n", NOT_ABOVE),
    ("a contract of the crate's own below", "low/src/lib.rt", "    ensures { x ≡ result }\n", "", NOT_ABOVE),
    ("a constant of the crate's own below", "low/src/lib.rt", "SHOWN: usize = 8", "SHOWN: usize = 9", NOT_ABOVE),
    ("a body in an impl below", "low/src/lib.rt", "helper(11)", "11", NOT_ABOVE),
    ("a clause's import for bodies below", "low/src/more.rt", "{◌≡◌}", "{◌≡◌, length}", NOT_ABOVE),
    ("an import for bodies below", "low/src/more.rt", "crate::same", "crate::{helper, same}", NOT_ABOVE),
    ("a function of the crate's own below", "low/src/lib.rt", "/// A step", f"{UNNAMED}/// A step", NOT_ABOVE),
    ("a contract below", "low/src/lib.rt", "{ result ≡ x }\n{", "{ x ≡ result }\n{", ALL_THREE),
    ("a contract in an impl below", "low/src/lib.rt", "result ≡ 9", "9 ≡ result", ALL_THREE),
    ("a constant that a public one has below", "low/src/lib.rt", "MOST: usize = 7", "MOST: usize = 8", ALL_THREE),
    ("a body in a trait below", "low/src/lib.rt", "self.size() + self.size()", "2 * self.size()", ALL_THREE),
    ("a body that says its type below", "low/src/lib.rt", "n + 10", "10 + n", ALL_THREE),
    ("a function below", "low/src/lib.rt", "pub fn same", "#[inline]\npub fn same", ALL_THREE),
    ("the body of a constant function below", "low/src/lib.rt", "x + x", "x + x + 0", ALL_THREE),
    ("a definition of specs/ below", "low/specs/Twice.antt", "= n + n", "= n + n + 0", ALL_THREE),
    ("a lemma's statement below", "low/proofs/Laws.antt", "n ≤ twice n", "n + 0 ≤ twice n", ALL_THREE),
    ("an abbreviation of proofs/ below", "low/proofs/Laws.antt", "n + twice n", "twice n + n", ALL_THREE),
    ("the crate's own body", "mid/src/lib.rt", "low::same(y)", "low::same(y) + 0", {MIDDLE_EDIT}),
    ("the crate's own proof", "mid/proofs/Cites.antt", "= grows n", "= grows (n)", {MIDDLE_EDIT}),
    ("the edit itself", "mid/must-fail/middle.edit", "new:     0", "new:     1", {MIDDLE_EDIT}),
)  # fmt: skip


def three_crates(at: str) -> str:
    """Makes a library over the lower crate of the small tree in a folder, and gives the program an edit."""
    tree = f"{at}/tree"
    write(f"{tree}/crates.txt", "low:\nmid: low\npascal: low\n")
    for name, files in (("low", LOWER), ("mid", MIDDLE)):
        for path, text in files.items():
            write(f"{tree}/crates/{name}/{path}", text)
    write(f"{tree}/crates/pascal/must-fail/program.edit", 'file: src/main.rt\nold: "hello"\nnew: "hallo"\n')
    return tree


def changed_by(tree: str, change: Callable[[], None]) -> Set[listed.Named]:
    """The edits whose sums a change of a tree changes."""
    was = listed.sums_of(tree)
    change()
    made = listed.sums_of(tree)
    return {name for name in made if made[name] != was.get(name)}


def edits_by_what_decides_them(small: Small) -> Optional[str]:
    """An edit's sum changes with its crate, with its row, and with a statement below, and not with a body or a proof
    below, except for a program."""
    wrongly = []
    for what, file, old, new, wanted in CHANGES:
        with small.copy(store=False) as at:
            tree = three_crates(at)
            found = changed_by(tree, lambda: edit(f"{tree}/crates/{file}", old, new))
            wrongly += [] if found == wanted else [f"{what} changes {sorted(found)}"]
    for row, wanted in (("mid: low hex", {MIDDLE_EDIT}), ("low: hex\nmid: low", ALL_THREE)):
        with small.copy(store=False) as at:
            tree = three_crates(at)
            found = changed_by(tree, lambda: edit(f"{tree}/crates.txt", row.replace(" hex", ""), row))
            wrongly += [] if found == wanted else [f"the row {row!r} changes {sorted(found)}"]
    with small.copy(store=False) as at:
        tree = three_crates(at)
        found = changed_by(tree, lambda: write(f"{tree}/crates/low/must-fail/more.edit", "file: src/lib.rt\n"))
        wrongly += [] if found == {("low", "more.edit")} else [f"another edit changes {sorted(found)}"]
    return "; ".join(wrongly) or None


def every_eighth(small: Small) -> Optional[str]:
    """Of edits that all stand, eight trees in a row try each once; all are tried if that is asked for."""
    sums = {("low", f"{number}.edit"): f"sum{number}" for number in range(20)}
    rows = [listed.Row("kit", known, *name) for name, known in sums.items()]
    choice, tried = listed.Choice(sums, rows, "kit"), []
    for choice.tree in range(800, 808):
        tried += choice.left()
    everything = listed.Choice(sums, rows, "kit", tries_all=True).left()
    well = sorted(tried) == sorted(sums) and everything == [*sums]
    return None if well else f"tried {tried}, and with --edits {everything}"


def lists_of_other_kits(small: Small) -> Optional[str]:
    """Another kit's rows stand for no edit, and a release keeps those that still fit. It adds a row only for what this
    run tried and saw refused, and takes nothing for it from the store."""
    sums = {("low", name): f"sum of {name}" for name in ("one", "two", "three")}
    rows = [
        listed.Row("other", "sum of one", "low", "one"),
        listed.Row("other", "sum before", "low", "two"),
        listed.Row("kit", "sum of three", "low", "three"),
        listed.Row("kit", "sum of gone", "low", "gone"),
    ]
    choice = listed.Choice(sums, rows, "kit", releases=True)
    choice.tree = 0
    stand, kept = [name for name in sums if choice.stands(name)], [name for name in sums if choice.takes_kept(name)]
    choice.note("low", ["one", "two", "three"], [
        listed.Trial(True, ""), listed.Trial(False, ""), listed.Trial(True, "", listed.STANDS)
    ])
    wanted = {rows[0], rows[2], listed.Row("kit", "sum of one", "low", "one")}
    well = stand == kept == [("low", "three")] and choice.new_rows() == wanted
    later = listed.Choice(sums, (), "kit")
    later.note("low", ["one", "two"], [listed.Trial(True, "", listed.KEPT), listed.Trial(True, "", listed.STANDS)])
    return None if well and not later.new_rows() else f"{stand} stand, {kept} may be kept, and {choice.new_rows()}"


def lists_that_are_damaged(small: Small) -> Optional[str]:
    """A list that is missing, empty, cut, longer, a folder, or has a changed byte or row, has no rows, and a line says
    so."""
    rows, said = [listed.Row("kit", f"sum{number}", "low", f"{number}.edit") for number in range(9)], io.StringIO()
    with small.copy(store=False) as at:
        path = f"{at}/tree/released/edits"
        listed.write(path, rows)
        with open(path, encoding="utf-8") as file:
            text = file.read()
        whole = listed.read(path) == set(rows)
        lines = text.splitlines(keepends=True)
        forms = ["", "\n", "\0" * 99, *(text[:length] for length in range(0, len(text), 7)), text + lines[-1]]
        forms += ["".join(lines[:at] + lines[at + 1 :]) for at in range(len(lines))]
        forms += [text[:at] + chr(ord(text[at]) ^ 1) + text[at + 1 :] for at in range(len(text))]
        taken = []
        for form in forms:
            write(path, form)
            with contextlib.redirect_stdout(said):
                taken += [form] if listed.read(path) else []
        os.remove(path)
        with contextlib.redirect_stdout(said):
            taken += ["none"] if listed.read(path) else []
            os.mkdir(path)
            taken += ["a folder"] if listed.read(path) else []
    told = said.getvalue().count("so all edits are tried")
    return None if whole and not taken and told == len(forms) + 2 else f"read {whole}, {taken}, told {told} times"


def eight_edits(at: str) -> None:
    """Gives the lower crate seven edits more."""
    for number in range(7):
        write(f"{at}/tree/crates/low/must-fail/{number}.edit", f"file: src/lib.rt\nold:     x\nnew:     {number + 1}\n")


def passed(said: str) -> int:
    """How much a run says that it passed."""
    return int(re.findall(r"(?m)^(\d+) passed, \d+ failed$", said)[-1])


STAND = (
    r"edits 1: 1 edits refused \(kept\), 7 edits stand by the list",
    r"edits: 0 tried in \d+ processor seconds, 1 known to the store, 7 stand by released/edits",
    "status 0",
)
ALL = (r"edits 1: 8 edits refused \(kept\)", "8 known to the store, 0 stand by released/edits", "status 0")


def runs_by_the_list(small: Small) -> Optional[str]:
    """A release tries the edits that have no row, whatever the store has. Then seven of eight stand and are not
    counted, until the list is damaged, of another kit or missing, or all are asked for."""
    with small.copy() as at:
        path, faults = f"{at}/tree/released/edits", []
        eight_edits(at)
        faults.append(wrong(small.gate(at, ["--release"]), (r"edits 1: 8 edits refused \(8 tried", "status 0")))
        said = small.gate(at)
        faults.append(wrong(said, STAND, ["so all edits are tried"]))
        every = small.gate(at, ["--edits"])
        faults.append(wrong(every, ALL, ["so all edits are tried"]))
        faults.append(None if passed(every) == passed(said) + 7 else f"counted {passed(every)} and {passed(said)}")
        faults.append(wrong(small.gate(at, ["--which"]), ("(?m)^1 of 8 edits would be tried$", "status 0")))
        shutil.copy2(path, f"{at}/whole")
        cut(path)
        faults.append(wrong(small.gate(at), ("gate: released/edits is not as a release wrote it", *ALL)))
        listed.write(path, [row._replace(kit="other") for row in listed.read(f"{at}/whole")])
        faults.append(wrong(small.gate(at), ALL, ["so all edits are tried"]))
        os.remove(path)
        faults.append(wrong(small.gate(at), ("gate: there is no released/edits", *ALL)))
        return next(filter(None, faults), None)


def runs_of_what_the_list_has_no_more(small: Small) -> Optional[str]:
    """An edit is tried again when its crate has changed. One that cannot be applied fails, even if it has a row."""
    with small.copy() as at:
        tree = f"{at}/tree"
        eight_edits(at)
        edit(f"{tree}/crates/low/must-fail/3.edit", "old:     x", "old:     z")
        rows = [listed.Row(listed.kit_name(), known, *name) for name, known in listed.sums_of(tree).items()]
        listed.write(f"{tree}/released/edits", rows)
        wanted = (r"low/3\.edit: BAD EDIT", "edits 1: FAILED", "released/edits has what is not refused", "status 1")
        why = wrong(small.gate(at), wanted)
        edit(f"{tree}/crates/low/must-fail/3.edit", "old:     z", "old:     x")
        edit(f"{tree}/crates/low/src/lib.rt", "The same number", "This very number")
        return why or wrong(small.gate(at), ("low: proved", r"edits 1: 8 edits refused \(8 tried"))


CONDITIONS = (
    edits_by_what_decides_them,
    every_eighth,
    lists_of_other_kits,
    lists_that_are_damaged,
    runs_by_the_list,
    runs_of_what_the_list_has_no_more,
)

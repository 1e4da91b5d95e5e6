"""The must-fail edits of a crate, tried together where that is possible.

A check says of each function whether it is proved, so one check can try many edits, each of another function's body.
Such an edit is refused if its own function is not proved because of an obligation of that function's own code: not
because it calls what is not proved, and not because a text cannot be read. What a round does not settle is tried in a
further round, then alone at its function, and at last alone from nothing, by the rule of `rt ci`; so are edits of
clauses and of what is outside functions, and those that another edit hides.
"""

import os
import re
import resource
import shutil
from typing import Any, Dict, Iterable, Iterator, List, Optional, Tuple

import kit
import listed
import stubs
import verdicts
from beside import Shared, Work, beside, is_library
from edit import Edit, names_in, side_by_side
from listed import Trial
from refusals import is_proved, is_proved_whole, last_line, refused_at, refused_for, told_something, unproved
from stubs import Texts
from together import Copy, Together

# the lines of Rust of a crate of which copies are checked whole
LINES_OF_SMALL = 200
# the edits of crates that are tried in one check, if a crate has not more by itself; and the bytes that a check takes
# for a line of a crate more
MOST_OF_GROUP, BYTES_OF_LINE = 75, 100_000


def tried_together(left: List[Tuple[Any, List[Edit]]], flags: List[str]) -> Dict[str, Dict[Edit, str]]:
    """Tries edits of several crates beside their functions, and those that name a function in copies of their own, all
    in one check. Returns for each crate, by its name, those that are refused, each with the message; nothing if the
    check says nothing, and nothing for a program, which can't be a library."""
    shared = {crate.name: Shared(crate, edits, flags) for crate, edits in left if is_library(crate)}
    copies = [copy for share in shared.values() for copy in share.copies()]
    if not copies:
        return {}
    empty = Together(f"{left[0][0].folder}/out/together", copies)
    ran = kit.rt().checked(empty, {}, [*flags, *empty.asked()], None)
    done = {name: share.judged(ran) for name, share in shared.items()} if told_something(ran) else {}
    for folder in [empty.folder, *(copy.folder for copy in copies)]:
        shutil.rmtree(folder, ignore_errors=True)
    return done


def round_of(stubbed: stubs.Stubbed, work: Work, edits: Iterable[Edit]) -> Dict[Edit, str]:
    """Tries edits together in their places and returns those that are refused, each with what was said."""
    group, edited = side_by_side(edits, work.crate)
    texts = stubbed.texts(edited)
    said = work.checked(stubbed, texts, [name for edit in group for name in edit.names]) if group else None
    if not (group and told_something(said)):
        return {}
    found = refused_at(said.stdout, texts, work.crate)
    done = {edit: found[place] for edit in group for place in edit.places if place in found}
    print(f"a round of {len(group)} edits refused {len(done)}", flush=True)
    return done


class Spent:
    """What the parts of a crate's trials took of the processors, for the run's log."""

    def __init__(self) -> None:
        self.parts, self.last = [], self.now()

    @staticmethod
    def now() -> float:
        """The processor seconds used so far."""
        usage = resource.getrusage(resource.RUSAGE_CHILDREN)
        return usage.ru_utime + usage.ru_stime

    def part(self, what: str) -> None:
        """Notes how much a part took, if it took anything."""
        now = self.now()
        if now - self.last >= 1:
            self.parts.append(f"{what} {now - self.last:.0f} s")
        self.last = now

    def tell(self, left: List[Tuple[Any, List[Edit]]]) -> None:
        """Prints how much processor time each part took for these edits."""
        print(
            f"gate: {', '.join(f'{len(edits)} of {crate.name}' for crate, edits in left)} took of a processor: "
            f"{', '.join(self.parts)}",
            flush=True,
        )


def tried(crate: Any, edit: Edit, flags: List[str]) -> Trial:
    """Whether `rt ci` refuses an edit, as it must, and what it says: the whole crate is checked, from nothing. One that
    cannot be applied, compiled or read counts as not refused."""
    kind, said = kit.rt().must_fail(crate, edit.path, flags, None)
    return Trial(kit.is_refusal(kind), said)


def named(stubbed: stubs.Stubbed, work: Work, edit: Edit) -> Optional[str]:
    """Tries an edit at its function, and returns why that, or what it calls, is not proved: then the crate is not,
    either. None if the check doesn't say, or if the only reason is that a proof names what the edit removed."""
    edited, names = edit.apply({}, work.crate), names_in(edit)
    if not (edited and names):
        return None
    texts = stubbed.texts(edited)
    ran = work.checked(stubbed, texts, names)
    # (which counts what the function calls, too)
    told = re.match(r"only=(\d+) proved=(\d+)", last_line(ran))
    if not told or told[1] == told[2]:
        return None
    return refused_for(ran, texts, [why for why in (unproved(ran, work.crate, name) for name in names) if why])


def key_of(crate: Any, edit: Edit) -> str:
    """The key under which the store keeps the verdict of an edit."""
    return kit.sum_of("edit", verdicts.FORM, verdicts.facts_of(crate)["key"], edit.name, edit.text)


class Group:
    """Crates whose edits are tried together, as the one task of a run: once all of them and their tests are proved."""

    def __init__(self, number: int) -> None:
        self.key, self.members = (f"edits {number}", "edits"), []

    def has_room(self, paths: List[str]) -> bool:
        """Whether the group has room for these edits, too."""
        return sum(len(paths) for _, paths in [*self.members, (None, paths)]) <= MOST_OF_GROUP

    def task(self) -> Tuple[Any, ...]:
        """What a task of `rt ci` is: what it waits for, its lines, its memory, and this call."""
        crates, rt = [crate for crate, _ in self.members], kit.rt()
        lines = [crate.count(rb"\n") for crate in crates]
        waits = [(crate.name, part) for crate in crates for part in ("proof", "tests")]
        # (the libraries below, which take most of what a crate needs, are loaded once)
        memory = max(rt.need(crate) for crate in crates) + BYTES_OF_LINE * (sum(lines) - max(lines))
        # (as many lines as one of them would have after its proof, so that the order of the proofs stays)
        return waits, max(lines), memory, self

    def __call__(self, given: Dict[Any, Any], jobs: int) -> Dict[str, List[Trial]]:
        proved = [
            (crate, paths) for crate, paths in self.members if given[crate.name, "proof"] and given[crate.name, "tests"]
        ]
        told = {
            crate.name: [Trial(False, f"{crate.name}: its edits are not tried") for _ in paths]
            for crate, paths in self.members
        }
        told.update(try_all(proved, ["--jobs", str(jobs)]))
        for crate, paths in self.members:
            strays = [os.path.relpath(edit, crate.folder) for edit in kit.rt().edits_of(crate)[1]]
            if strays:
                why = f"{crate.name}: no edit, and not read: {', '.join(strays)}"
                told[crate.name] = [Trial(False, why) for _ in paths]
        return told


def add_all(tasks: Dict[Any, Any], crate: Any, paths: List[str], *_: Any) -> Any:
    """Adds a crate's edits to a task that tries them, and returns what gives their results, and those of earlier runs:
    none."""
    if not paths:
        return lambda given: [], dict
    # (neighbours, so that those of low crates need not wait for high ones)
    groups = [task[-1] for task in tasks.values() if isinstance(task[-1], Group)]
    group = groups[-1] if groups and groups[-1].has_room(paths) else Group(len(groups) + 1)
    group.members.append((crate, paths))
    # (after everything that it waits for)
    tasks.pop(group.key, None)
    tasks[group.key] = group.task()

    def results(given: Dict[Any, Any]) -> Any:
        """The results of a crate's edits, from those of the group."""
        broken = [Trial(False, f"{crate.name}: trying its must-fail edits broke off") for _ in paths]
        told = given[group.key][crate.name] if given[group.key] else broken
        listed.choice.note(crate.name, paths, told)
        return [(kit.verdict_of_edit(trial.is_refused), trial.said) for trial in told]

    return results, dict


def grouped(table: Dict[Any, Any]) -> Dict[Any, Any]:
    """The tasks of a kit that keeps nothing, which has one for the edits of each crate: tasks for several crates each,
    and behind them, for each crate, one that hands its results on."""
    rt, tasks, handing = kit.rt(), {}, {}
    crates = {crate.name: crate for crate in rt.rtlib.crates_below(os.getcwd())}
    for (name, part), task in table.items():
        if part != "edits":
            tasks[name, part] = task
    for name, crate in crates.items():
        paths, strays = rt.edits_of(crate)
        results, _ = add_all(tasks, crate, paths)
        handing[name, "edits"] = hand_on(strays, paths, results)
    groups = [key for key, task in tasks.items() if isinstance(task[-1], Group)]
    return {**tasks, **{key: (groups, 0, 0, call) for key, call in handing.items()}}


def hand_on(strays: List[str], paths: List[str], results: Any) -> Any:
    """A task's call that gives what a kit that keeps nothing wants to know of a crate's edits: what else stands in
    their folder, the edits, and what came of each."""
    return lambda given, _: (strays, paths, results(given))


def try_all(members: List[Tuple[Any, List[str]]], flags: List[str]) -> Dict[str, List[Trial]]:
    """What came of each edit of some crates: whether the prover refuses it, and what to say."""
    told, left, spent = {}, [], Spent()
    for crate, paths in members:
        told[crate.name], anew = known(crate, paths, flags)
        left += [(crate, anew)] if anew else []
    done = tried_together(left, flags)
    spent.part(f"{sum(map(len, done.values()))} of {sum(len(edits) for _, edits in left)} in one check")
    for crate, edits in left:
        told[crate.name].update(try_anew(crate, edits, flags, done.get(crate.name), spent))
    if left:
        spent.tell(left)
    return {crate.name: [told[crate.name][path] for path in paths] for crate, paths in members}


def known(crate: Any, paths: List[str], flags: List[str]) -> Tuple[Dict[str, Trial], List[Edit]]:
    """What is known of a crate's edits: those that cannot be applied fail, some stand by the list, and some were tried
    in earlier runs; and the edits that are left to be tried."""
    told, left = {}, []
    for edit in [Edit(path, crate) for path in paths]:
        kept = listed.choice.takes_kept((crate.name, edit.name)) and verdicts.store.facts(key_of(crate, edit))
        if kit.rt().read_edit(edit.path, crate.folder)[1]:
            told[edit.path] = tried(crate, edit, flags)
        elif listed.choice.stands((crate.name, edit.name)):
            told[edit.path] = Trial(True, f"must-fail {crate.name}/{edit.name}: stands by {listed.NAME}", listed.STANDS)
        elif kept:
            told[edit.path] = Trial(True, kept["facts"]["said"], listed.KEPT)
        else:
            left.append(edit)
    return told, left


def keep(crate: Any, edit: Edit, told: Trial) -> Trial:
    """Keeps an edit that is refused in the store, with what is to be said of it, as soon as that is known."""
    if told.is_refused:
        verdicts.store.put(key_of(crate, edit), {"crate": crate.name, "said": told.said}, None, [])
    return told


def try_anew(
    crate: Any, edits: List[Edit], flags: List[str], done: Optional[Dict[Edit, str]], spent: "Spent"
) -> Dict[str, Trial]:
    """Tries edits of which the store knows nothing, and keeps there those that are refused. Where they were tried
    together with those of other crates, these ones were refused there."""
    told = {}
    for edit, why in refused_by_name(Work(crate, flags), edits, done, spent):
        told[edit.path] = keep(crate, edit, refused(crate, edit, why))
    for edit, came in tried_whole(Work(crate, flags), [edit for edit in edits if edit.path not in told], spent):
        told[edit.path] = keep(crate, edit, came)
    return told


def refused(crate: Any, edit: Edit, why: str) -> Trial:
    """What came of an edit that is refused."""
    return Trial(True, f"must-fail {crate.name}/{edit.name}: refused, as it must be: {why[:160]}")


class Whole:
    """Edits that name no function, each in a copy of the whole crate, and one unedited copy, in one check."""

    def __init__(self, work: Work, edits: List[Edit]) -> None:
        self.work, self.crate, self.copies = work, work.crate, {}
        made = {edit: edit.apply({}, self.crate) for edit in edits}
        self.as_it_is = self.copy("as_it_is", {})
        for number, edit in enumerate(edit for edit in edits if made[edit] is not None):
            self.copies[edit] = self.copy(f"edited{number}", made[edit])

    def copy(self, name: str, made: Texts) -> Copy:
        """Makes a copy of the crate with the given texts."""
        places = {place for place, _ in stubs.all_functions(stubs.texts_of(self.crate))}
        stubbed = stubs.Stubbed(self.crate, f"{self.work.copy_at()}_{name}", places)
        return Copy(stubbed, f"{self.crate.name}_{name}", stubbed.texts(made), [])

    def tried(self) -> Dict[Edit, str]:
        """Those whose copies are refused, if the unedited copy is proved, each with the message."""
        copies = [self.as_it_is, *self.copies.values()]
        empty = Together(f"{self.crate.folder}/out/together", copies)
        ran, done = kit.rt().checked(empty, {}, self.work.flags, None), {}
        if last_line(ran).startswith("logic=not-proved") and is_proved_whole(self.as_it_is.said(ran)):
            why = {edit: refused_for(copy.said(ran), copy.texts, []) for edit, copy in self.copies.items()}
            done = {edit: told for edit, told in why.items() if told}
        for folder in [empty.folder, *(copy.folder for copy in copies)]:
            shutil.rmtree(folder, ignore_errors=True)
        return done


def tried_whole(work: Work, edits: List[Edit], spent: Spent) -> Iterator[Tuple[Edit, Trial]]:
    """Yields edits with their results when the whole crate is checked: several edits of a small crate in copies of it;
    several of a larger one over what the unedited crate left, if that is proved; a single one, and each that is not
    refused this way, from nothing."""
    if len(edits) > 1 and is_library(work.crate) and work.crate.count(rb"\n") <= LINES_OF_SMALL:
        done = Whole(work, edits).tried()
        spent.part(f"{len(done)} of {len(edits)} in copies of the whole crate")
        yield from ((edit, refused(work.crate, edit, why)) for edit, why in done.items())
        edits = [edit for edit in edits if edit not in done]
    is_held = len(edits) > 1 and not work.checked(work, {}, []).returncode
    spent.part("the crate as it stands")
    for edit in edits:
        why = is_held and refused_whole(work, edit)
        yield edit, refused(work.crate, edit, why) if why else tried(work.crate, edit, work.flags)
        spent.part(f"{edit.name} with the whole crate{'' if why else ', from nothing'}")
    work.remove()


def refused_whole(work: Work, edit: Edit) -> Optional[str]:
    """Why the whole crate is not proved with an edit, over what earlier trials left, or None if the check doesn't
    say."""
    texts = edit.apply({}, work.crate)
    ran = work.checked(work, texts, []) if texts else None
    return refused_for(ran, texts, []) if ran and last_line(ran).startswith("logic=not-proved") else None


def refused_by_name(
    work: Work, edits: List[Edit], done: Optional[Dict[Edit, str]], spent: Spent
) -> Iterator[Tuple[Edit, str]]:
    """Yields the edits that are refused at functions, each with the message: first those beside their functions, which
    are given if they are known, then those that are tried in their places, and at last each of the rest by itself."""
    if done is None:
        done = beside(work, edits)
        spent.part(f"{len(done)} of {len(edits)} of {work.crate.name} beside their functions")
    yield from done.items()
    left = [edit for edit in edits if edit not in done and names_in(edit)]
    places = {place for edit in left for place in [*(edit.places or ()), *stubs.places_of(work.crate, names_in(edit))]}
    stubbed = stubs.Stubbed(work.crate, work.copy_at(), places) if left else None
    while left:
        left = held(stubbed, work, left, spent)
        done = round_of(stubbed, work, left)
        spent.part(f"a round that refused {len(done)} of {len(left)}")
        yield from done.items()
        left = [edit for edit in left if edit not in done]
        if not done:
            break
    for edit in left:
        why = held(stubbed, work, [edit], spent) and named(stubbed, work, edit)
        spent.part(f"{edit.name} at its function")
        if why:
            yield edit, why
    work.remove()


def held(stubbed: stubs.Stubbed, work: Work, edits: List[Edit], spent: Spent) -> List[Edit]:
    """Those of the edits whose functions are proved in a copy without the edits, over what earlier trials left, so that
    what is refused with them is the edits' doing."""
    names = sorted({name for edit in edits for name in names_in(edit)})
    if work.is_held or not names:
        return edits
    said = work.checked(stubbed, stubbed.texts({}), names)
    work.is_held = True
    if said.returncode:
        print(f"without the edits it is not proved: {said.stdout[-400:]}", flush=True)
    spent.part("the functions of those left, without the edits")
    return [
        edit
        for edit in edits
        if all(is_proved(said, work.crate, name) or not said.returncode for name in names_in(edit))
    ]

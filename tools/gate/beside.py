"""Copies of a crate in which several of its edits are tried by one check: in twins of functions, and apart."""

import os
import re
import shutil
import signal
from typing import Any, Dict, Iterable, List, Optional, Tuple

import kit
import stubs
from edit import Edit, names_in
from refusals import Ran, is_proved, is_refused, refused_at, refused_for, told_something, unproved
from stubs import Place, Texts
from together import Copy


class Work:
    """What the trials of a crate's edits have proved so far, which those that follow need not prove again, in a folder
    that is made empty here."""

    def __init__(self, crate: Any, flags: List[str]) -> None:
        self.crate, self.flags, self.at = crate, flags, f"{crate.folder}/out/tried"
        self.empty()

    def empty(self) -> None:
        """Forgets what was proved."""
        shutil.rmtree(self.at, ignore_errors=True)
        os.makedirs(self.at)
        self.is_held = False

    def remove(self) -> None:
        """Removes the folder."""
        shutil.rmtree(self.at, ignore_errors=True)
        shutil.rmtree(self.copy_at(), ignore_errors=True)

    def copy_at(self) -> str:
        """The folder of the copy."""
        return f"{self.crate.folder}/out/stubbed"

    def checked(self, stubbed: stubs.Stubbed, texts: Texts, names: Iterable[str], keeps: bool = True) -> Ran:
        """The check of functions of a copy with these texts, which leaves what it proved for later ones, unless it is
        the only one that is expected. One that is killed, most likely for memory, is made once more, and from nothing,
        since it may have left something half written."""
        words = [*self.flags, *(word for name in names for word in ("--only", name))]
        ran = kit.rt().checked(stubbed.crate, texts, words, self.at if keeps else None)
        if ran.returncode != -signal.SIGKILL:
            return ran
        self.empty()
        return kit.rt().checked(stubbed.crate, texts, words, self.at)


class Beside:
    """Edits that are tried beside one another, in one copy of a crate. Each is made in a twin of its function, which
    nothing calls; of a function that can have no twin, such as a trait's method, one edit is made in its place, if the
    function has no answers. A member of a cycle of calls also has an unedited twin, since its answers are cut out of
    the cycle's, and so has a function whose answers name other proofs. Of all the rest, whose twins differ from them
    only by name, one has an unedited twin: the shortest of those with answers, or of all. An edit of few arms of a
    `match` of many is made in a twin in which the other arms never return, and that function has a second, unedited
    twin with the same arms."""

    def __init__(self, crate: Any, edits: List[Edit], cuts: bool) -> None:
        self.crate, self.sources, self.cuts = crate, stubs.texts_of(crate), cuts
        # of each edit, and of each function of which a twin is as it is, the place and the name in the copy; of each
        # edit the arms that its twin has, if it has not all, and the function whose twin holds it, with that one's arms
        self.at, self.held, self.arms_of, self.twins = {}, {}, {}, []
        self.edited, self.in_place = {}, set()
        beside = [edit for edit in edits if len(edit.places or ()) == 1 and not edit.at]
        twins = {place for edit in beside for place in edit.places if stubs.can_have_twin(self.sources, place)}
        alike = {place for place in twins if stubs.differs_by_name(crate, self.sources, place)}
        self.alike, self.first = alike, min(alike, key=self.order, default=None)
        for edit in beside:
            self.add(edit, *edit.places)
        for edit in beside:
            self.add_as_it_is(edit, *edit.places)
        # (what this check proves is kept for those that are tried at functions, in their places or alone)
        self.keeps = any(names_in(edit) and edit not in self.held for edit in edits)

    def order(self, place: Place) -> Tuple[Any, ...]:
        """Tells which of the functions that differ from their twins by name alone comes first."""
        length = next(
            function.last - function.top for own, function in stubs.all_functions(self.sources) if own == place
        )
        return not stubs.has_answers(self.crate, self.sources, place), length, place[0], place[1], place[2] or ""

    def add(self, edit: Edit, place: Place) -> None:
        """Adds an edit of the function at a place."""
        if stubs.can_have_twin(self.sources, place):
            made = edit.apply({}, self.crate)
            arms = self.arms_of[edit] = self.arms(place, made)
            self.add_twin(edit, edit, place, made, f"edited{len(self.at)}", arms)
            self.held[edit] = (self.first, None) if place in self.alike and not arms else (place, arms)
        elif not stubs.has_answers(self.crate, self.sources, place) and place not in self.in_place:
            made = edit.apply(self.edited, self.crate)
            if made is not None:
                self.edited, self.at[edit], self.held[edit] = made, (place, edit.names[0]), (self.first, None)
                self.in_place.add(place)

    def add_as_it_is(self, edit: Edit, place: Place) -> None:
        """Adds the unedited twins of an edit's function that hold edits."""
        for arms in dict.fromkeys([self.arms_of.get(edit), None]):
            if (place, arms) in self.held.values() and (place, arms) not in self.at:
                self.add_twin((place, arms), edit, place, self.sources, f"as_it_is{len(self.at) if arms else ''}", arms)

    def arms(self, place: Place, made: Texts) -> Optional[Tuple[int, ...]]:
        """The arms to which a twin is cut down, by their numbers, or None: it can't be cut down if answers in files
        refer to all of them."""
        if not self.cuts or stubs.has_answers(self.crate, self.sources, place):
            return None
        return stubs.arms_of_edit(stubs.lines_at(self.sources, place), stubs.lines_at(made, place))

    def add_twin(
        self, key: Any, edit: Edit, place: Place, sources: Texts, ending: str, arms: Optional[Tuple[int, ...]] = None
    ) -> None:
        """Adds a twin of a function to the copy."""
        twin = stubs.Twin(sources, place, f"{place[1]}_{ending}", arms)
        self.twins.append(twin)
        self.at[key] = twin.place, re.sub(r"\w+$", twin.name, edit.names[0])

    def copied(self, work: Work) -> stubs.Stubbed:
        """The copy of the crate with its twins."""
        return stubs.Stubbed(self.crate, work.copy_at(), self.in_place, self.twins)

    def asked(self) -> List[str]:
        """The names of the twins, and of what is edited in its place."""
        return [name for _, name in self.at.values()]

    def tried(self, work: Work) -> Optional[Dict[Edit, str]]:
        """Checks all of them, and returns those that are refused, each with the message; None if the check says
        nothing."""
        if not self.twins:
            return {}
        stubbed = self.copied(work)
        texts = stubbed.texts(self.edited)
        said = work.checked(stubbed, texts, self.asked(), self.keeps)
        return self.judged(said, texts) if told_something(said) else None

    def judged(self, said: Ran, texts: Texts) -> Dict[Edit, str]:
        """The edits that a check refuses, each with what it said."""
        found, done = refused_at(said.stdout, texts, self.crate), {}
        for edit, held in self.held.items():
            place, name = self.at[edit]
            _, as_it_is = self.at.get(held, (None, None))
            why = found.get(place) or unproved(said, self.crate, name)
            if why and is_proved(said, self.crate, as_it_is):
                done[edit] = why
        print(
            f"{self.crate.name}: of {len(self.held)} edits beside {len(self.at) - len(self.held)} functions as they "
            f"are, {len(done)} are refused",
            flush=True,
        )
        return done


def beside(work: Work, edits: List[Edit]) -> Dict[Edit, str]:
    """Tries edits beside one another, all in one check, and returns those that are refused, each with the message. If
    that says nothing and twins were cut down to some arms, they are tried with all arms."""
    trial = Beside(work.crate, edits, cuts=True)
    done = trial.tried(work)
    if done is None and any(trial.arms_of.values()):
        done = Beside(work.crate, edits, cuts=False).tried(work)
    return done or {}


class Apart:
    """Edits at functions that have no twin: edits outside functions that name one, edits of several bodies, and second
    edits of bodies that are edited in their places. Each is made in its own copy of the crate, where its functions have
    their bodies. One more copy is unedited: it has those functions that are proved in a copy because they are in the
    crate, or one of them, and all others."""

    def __init__(self, work: Work, edits: List[Edit]) -> None:
        self.crate, self.copies, self.held, self.as_it_is = work.crate, {}, {}, None
        for number, edit in enumerate(edits):
            made = edit.apply({}, self.crate)
            if made is not None:
                self.copies[edit] = self.copy(work, f"edited{number}", made, names_in(edit))
        alike = sorted(name for edit in self.copies for name in names_in(edit) if self.differs_by_name(edit))
        for edit in self.copies:
            self.held[edit] = alike[:1] if self.differs_by_name(edit) else names_in(edit)
        if self.copies:
            self.as_it_is = self.copy(
                work, "as_it_is", {}, sorted({name for names in self.held.values() for name in names})
            )

    def differs_by_name(self, edit: Edit) -> bool:
        """Whether a copy with an edit's functions differs from the crate only by its name, if these are unedited."""
        sources, places = stubs.texts_of(self.crate), stubs.places_of(self.crate, names_in(edit))
        return (
            not stubs.lemmas_name_functions(self.crate)
            and all(stubs.differs_by_name(self.crate, sources, place) for place in places)
        )

    def copy(self, work: Work, name: str, made: Texts, asked: List[str]) -> Copy:
        """Makes a copy of the crate with the given texts."""
        stubbed = stubs.Stubbed(self.crate, f"{work.copy_at()}_{name}", stubs.places_of(self.crate, asked))
        return Copy(stubbed, f"{self.crate.name}_{name}", stubbed.texts(made), asked)

    def all(self) -> List[Copy]:
        """All copies of the crate."""
        return [self.as_it_is, *self.copies.values()] if self.copies else []

    def judged(self, ran: Ran) -> Dict[Edit, str]:
        """The edits of which a check refuses a function in its copy, and proves in the unedited copy what shows that
        the edit is the reason, each with the message."""
        done, held = {}, self.as_it_is.said(ran) if self.copies else None
        for edit, copy in self.copies.items():
            said, names = copy.said(ran), names_in(edit)
            why = refused_for(
                said, copy.texts, [why for why in (unproved(said, self.crate, name) for name in names) if why]
            )
            if (
                why
                and any(is_refused(said, self.crate, name) for name in names)
                and all(is_proved(held, self.crate, name) for name in self.held[edit])
            ):
                done[edit] = why
        if self.copies:
            print(
                f"{self.crate.name}: of {len(self.copies)} edits in copies of their own {len(done)} are refused",
                flush=True,
            )
        return done


class Shared:
    """A crate's part in a check of edits of several crates: a copy of the crate with all twins, if there are any, and
    copies of single edits."""

    def __init__(self, crate: Any, edits: List[Edit], flags: List[str]) -> None:
        work = Work(crate, flags)
        self.beside, self.copy = Beside(crate, edits, cuts=True), None
        self.apart = Apart(work, [edit for edit in edits if names_in(edit) and edit not in self.beside.held])
        if self.beside.twins:
            stubbed = self.beside.copied(work)
            self.copy = Copy(stubbed, f"{crate.name}_edited", stubbed.texts(self.beside.edited), self.beside.asked())

    def copies(self) -> List[Copy]:
        """The copies of the crate."""
        return [*([self.copy] if self.copy else []), *self.apart.all()]

    def judged(self, ran: Ran) -> Dict[Edit, str]:
        """The edits that a check refuses, each with what it said."""
        beside = self.beside.judged(self.copy.said(ran), self.copy.texts) if self.copy else {}
        return {**beside, **self.apart.judged(ran)}


def is_library(crate: Any) -> bool:
    """Whether a crate is a library."""
    return os.path.isfile(f"{crate.folder}/src/lib.rt")

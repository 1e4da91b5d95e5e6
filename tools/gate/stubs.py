"""The copy of a crate in which edits are tried.

A proof reads only the contracts of the functions that its function calls. So all functions of the copy except the
given ones have a body that never returns: it meets any contract, has next to nothing to prove, and needs no answers.
The members of a cycle of calls are proved together, so they keep their bodies if one of them is given. An edit counts
as refused for its own sake only if the copy without the edits is proved.
"""

import copy
import functools
import os
import re
import shutil
from typing import Any, Dict, Iterable, Iterator, List, Optional, Set, Tuple

from functions import CYCLE, Function, functions_of, module_of

# the texts of files by their paths; and the place of a function: its file, its name and its type
Texts = Dict[str, str]
Place = Tuple[str, str, Optional[str]]

PARTS = ("src", "specs", "proofs")
# the files in which the goals of a function are answered, and the folder of the lemmas that answers are in other files
ANSWERS = ("Answers.antt", "Invariants.antt")
LEMMAS = "Answers"
# (what asks for lemmas, which a stub needs not)
TACTIC = re.compile(r"^ *#\[tactic\(.*\)\]$")
BODY = "crate::returns_never()"
# (an answer to what a member must show before it calls another: a pair of what falls, which the search or arithmetic
# shows, and of the other's `requires`, or `tt` if it has none)
FALLS = re.compile(r"(?m)( = |^ +)\((?:search|omega) \([^()]*\), (.*)\)$")
NOTHING_ELSE = "tt"
# The function that never returns, by one of C that is said to keep what nothing keeps: nothing of the copy is ever
# built.
KEEPS = "keeps_what_nothing_keeps"
NEVER = f"""
unsafe extern "C" {{
    safe fn {KEEPS}()
        ensures nothing {{ ⊥ }};
}}

#[tactic(auto)]
fn returns_never() -> ! {{
    {KEEPS}();
    unreachable!()
}}
"""


def texts_of(crate: Any) -> Texts:
    """The sources of a crate, by their paths."""
    found = {}
    for at, _, names in os.walk(f"{crate.folder}/src"):
        for name in names:
            path = os.path.join(at, name)
            with open(path, encoding="utf-8") as file:
                found[os.path.relpath(path, crate.folder)] = file.read()
    return found


def all_functions(sources: Texts) -> List[Tuple[Place, Function]]:
    """The functions of sources, each with its place: its file, name and type."""
    return [
        ((at, function.name, function.owner), function)
        for at, text in sources.items()
        for function in functions_of(text)
    ]


def cycles_of(sources: Texts, places: Iterable[Place]) -> Set[str]:
    """The cycles of calls of which functions at these places are members."""
    return {function.cycle for place, function in all_functions(sources) if place in places} - {None}


def bodies_of(sources: Texts, places: Iterable[Place]) -> Iterator[str]:
    """The bodies of the functions at these places, and of those in cycles with them."""
    cycles = cycles_of(sources, places)
    for place, function in all_functions(sources):
        if place in places or function.cycle in cycles:
            yield "\n".join(sources[place[0]].split("\n")[function.body : function.last])


def names(text: str, place: Place) -> bool:
    """Whether a body seems to call the function at a place."""
    _, name, owner = place
    before = rf"(?:\.|\b{owner}::|\bSelf::)" if owner else r"(?<![.\w])"
    return bool(re.search(rf"{before}{name}(?:::<[^>]*>)?\(", text))


def places_of(crate: Any, names: Iterable[str]) -> Set[Place]:
    """The places of the functions with these names below the crate, or of all that end like that if a name has more
    parts, as that of a trait's method has."""
    functions, found = all_functions(texts_of(crate)), set()
    for name in names:
        own = {
            place
            for place, _ in functions
            if "::".join([*module_of(place[0]), *([place[2]] if place[2] else []), place[1]]) == name
        }
        found |= own or {place for place, _ in functions if place[1] == name.split("::")[-1]}
    return found


Match = Tuple[List[str], List[List[str]], List[str]]


def lines_at(sources: Texts, place: Place) -> List[str]:
    """The lines of the function at a place, with those above its header that belong to it."""
    own = next(function for function in functions_of(sources[place[0]]) if (function.name, function.owner) == place[1:])
    return sources[place[0]].split("\n")[own.top : own.last + 1]


def match_in(lines: List[str]) -> Optional[Match]:
    """The lines of a function before the first arm of the `match` that is the only one at the outermost level of its
    body, those of each arm, and those after the last, in the layout of `rt fmt`; None if there is no such `match`."""
    space = re.match(" *", lines[-1])[0] + "    "
    begins = [
        number
        for number, line in enumerate(lines)
        if re.match(rf"{space}\S(?:.* )?match .*\{{$|{space}match .*\{{$", line)
    ]
    if len(begins) != 1:
        return None
    begin = begins[0] + 1
    end = next(number for number in range(begin, len(lines)) if lines[number].startswith(f"{space}}}"))
    # (anything else at an arm's indentation closes what an arm opened, continues its pattern, or is a comment)
    arms = [number for number in range(begin, end) if re.match(rf"{space}    [^\s}})\]|/#]", lines[number])]
    return lines[:begin], [lines[at:to] for at, to in zip(arms, [*arms[1:], end])], lines[end:]


def arms_of_edit(own: List[str], edited: List[str]) -> Optional[Tuple[int, ...]]:
    """Of the many arms of a function's `match` the few that an edit changes, by their numbers, if it changes nothing
    else."""
    was, made = match_in(own), match_in(edited)
    if not was or not made or (was[0], was[2]) != (made[0], made[2]) or len(was[1]) != len(made[1]):
        return None
    changed = tuple(number for number, (one, other) in enumerate(zip(was[1], made[1])) if one != other)
    is_read = all(" =>" in "\n".join(arm) for arm in was[1])
    return changed if is_read and changed and len(was[1]) >= 6 * len(changed) else None


def with_arms(lines: List[str], kept: Iterable[int]) -> List[str]:
    """A function in which of the arms of its `match` those with these numbers have their own code, and all others never
    return."""
    before, arms, behind = match_in(lines)
    newline = "\n"
    short = [
        arm if number in kept else f"{newline.join(arm).split(' =>', 1)[0]} => {BODY},".split(newline)
        for number, arm in enumerate(arms)
    ]
    return [*before, *(line for arm in short for line in arm), *behind]


class Twin:
    """A copy of a function under another name, next to it, with an edit or unedited; of its `match` only the given
    arms, if any are given."""

    def __init__(self, sources: Texts, place: Place, name: str, kept: Optional[Tuple[int, ...]] = None) -> None:
        at, was, self.owner = place
        self.of, self.at, self.name = place, at, name
        self.place = at, name, self.owner
        own = next(function for function in functions_of(sources[at]) if (function.name, function.owner) == place[1:])
        lines = sources[at].split("\n")
        lines[own.header] = lines[own.header].replace(f"fn {was}", f"fn {name}", 1)
        self.cycle = own.cycle
        own_lines = [line for line in lines[own.top : own.last + 1] if not CYCLE.match(line)]
        self.lines = with_arms(own_lines, kept) if kept else own_lines


def can_have_twin(sources: Texts, place: Place) -> bool:
    """Whether the function at a place can have a twin: it has a body and is no trait's."""
    own = [function for function in functions_of(sources[place[0]]) if (function.name, function.owner) == place[1:]]
    return len(own) == 1 and own[0].has_body and not own[0].is_of_trait


def answers_of(proofs: str, place: Place) -> Iterator[str]:
    """The folders below a folder proofs/ that hold the proof of a function's body, and those of its closures."""
    at, name, owner = place
    own = [owner, name] if owner else [*module_of(at), name]
    closures = [*own[:-1], "fn", name]
    for folder, _, _ in os.walk(proofs):
        parts = os.path.relpath(folder, proofs).split("/")
        # (a method is below its type's module, which may be another than its file's)
        if parts in (own, closures) or owner and parts[-2:] == own or owner and parts[-3:] == closures:
            yield folder


def has_answers(crate: Any, sources: Texts, place: Place) -> bool:
    """Whether the function at a place has answers in files: its own, or its part of a cycle's."""
    return bool(cycles_of(sources, [place])) or any(answers_of(f"{crate.folder}/proofs", place))


def names_functions(crate: Any, path: str) -> bool:
    """Whether a file of a crate's proofs/ seems to name a module of a function's proof or contract, but for the goals
    of the answers in its own folder, and for lemmas that these are."""
    folder = os.path.dirname(path)
    folder = os.path.dirname(folder) if os.path.basename(folder) == LEMMAS else folder
    own = os.path.relpath(folder, f"{crate.folder}/proofs").replace("/", ".")
    with open(path, encoding="utf-8") as file:
        found = re.findall(rf"\bRattle\.{crate.name}\.(proofs|specs\.contracts)\.([^\s{{}}()]+)", file.read())
    # (the names of lemmas' modules begin with a capital, those of functions and of their cycles do not)
    others = [
        name
        for part, name in found
        if part != "proofs" or not re.fullmatch(rf"{re.escape(own)}\.(?:Goals|Given|{LEMMAS})(?:\..*)?", name)
    ]
    return any(not re.match(r"[A-Z]", word) for name in others for word in name.rstrip(".").split(".")[:-1])


@functools.lru_cache(None)
def lemmas_name_functions(crate: Any) -> bool:
    """Whether a file of lemmas seems to name a module of a function's proof, which may be missing in a copy."""
    return any(names_functions(crate, path) for path in files_below(f"{crate.folder}/proofs") if not is_answers(path))


def is_answers(path: str) -> bool:
    """Whether a file answers goals of a function, or has lemmas that such answers are."""
    return os.path.basename(path) in ANSWERS or os.path.basename(os.path.dirname(path)) == LEMMAS


def files_below(folder: str) -> List[str]:
    """The files below a folder."""
    return [f"{at}/{name}" for at, _, names in os.walk(folder) for name in names]


def differs_by_name(crate: Any, sources: Texts, place: Place) -> bool:
    """Whether a twin of the function at a place differs from it only by its name, and so is proved if the function is:
    it is in no cycle of calls, and if it has answers, they depend on lemmas and on no function's proof."""
    files = [path for folder in answers_of(f"{crate.folder}/proofs", place) for path in files_below(folder)]
    own = all(is_answers(path) and not names_functions(crate, path) for path in files)
    return not cycles_of(sources, [place]) and own and not (files and lemmas_name_functions(crate))


def blocks_of(text: str) -> List[str]:
    """What comes before the first answer or lemma of a file, and each of them."""
    return re.split(r"(?m)^(?=(?:--.*\n)*(?:abbrev )?pub )", text)


def merged(heads: Iterable[str]) -> str:
    """The imports of some files as those of one, without the comments and modules of their heads."""
    lists: Dict[str, Dict[str, None]] = {}
    for line in "\n".join(heads).split("\n"):
        listed = re.fullmatch(r"(use \S+\.\{)(.*)\}", line)
        if listed or line.startswith("use "):
            lists.setdefault(listed[1] if listed else line, {}).update(
                dict.fromkeys(listed[2].split(", ") if listed else ())
            )
    return "\n".join(name + ", ".join(items) + "}" if items else name for name, items in lists.items()) + "\n\n"


def with_lemmas(folder: str, text: str) -> str:
    """Answers, with the lemmas that they name put in their places, from the files of a folder."""
    lemmas, heads = {}, []
    for name in sorted(os.listdir(folder)):
        with open(f"{folder}/{name}", encoding="utf-8") as file:
            head, *blocks = blocks_of(file.read())
        heads.append(head)
        for block in blocks:
            lemmas[f"{name[: -len('.antt')].lower()}.{block.split()[1]}"] = block
    head, *blocks = blocks_of(text)
    made = []
    for block in blocks:
        named = re.search(r"(?m)^(\S+) = (\S+)$", block)
        lemma = lemmas.get(named[2]) if named else None
        short = re.escape(named[2].split(".", 1)[1]) if lemma else ""
        made.append(re.sub(rf"(?m)^((?:pub )?){short}(?= |$)", rf"\g<1>{named[1]}", lemma) if lemma else block)
    own = [line for line in head.split("\n") if not re.fullmatch(rf"use \S+\.{LEMMAS}\.\w+ as \w+", line)]
    return merged(["\n".join(own), *heads]) + "\n".join(block.rstrip("\n") + "\n" for block in made)


def answers_of_member(text: str, member: str) -> Optional[str]:
    """The answers of one member of a cycle of calls, as if it were in none: its twin calls the stubs of the others, and
    of itself. The names of a member's goals begin with its own, and their answers take what is known of the cycle
    first. In the twin nothing needs to decrease from call to call, so a call of what requires nothing has no goal."""
    head, *blocks = blocks_of(text)
    own = []
    for block in blocks:
        name = re.match(rf"(?:--.*\n)*(?:abbrev )?pub ((invariant-|decreases-|){re.escape(member)}-(\S+)) :", block)
        if name:
            new = name[2] + name[3]
            falls = FALLS.search(block) if "-requires" in new else None
            if falls and falls[2] == NOTHING_ELSE:
                continue
            block = FALLS.sub(r"\1\2", block) if falls else block
            own.append(
                re.sub(
                    rf"(?m)^({re.escape(new)}) t\b",
                    r"\1",
                    re.sub(rf"(?<![\w-]){re.escape(name[1])}(?![\w-])", new, block),
                )
            )
    return head + "".join(own) if own else None


class Stubbed:
    """A copy of a crate, in a folder that is made here, in which only the functions at some places, as (file, name,
    type), have their own bodies, and twins are next to their functions."""

    def __init__(self, crate: Any, folder: str, places: Set[Place], twins: Iterable[Twin] = ()) -> None:
        self.places, self.twins, self.proofs = places, twins, f"{folder}/proofs"
        self.crate = copy.copy(crate)
        self.crate.folder, self.crate.has_c = folder, True
        shutil.rmtree(folder, ignore_errors=True)
        for part in PARTS:
            if os.path.isdir(f"{crate.folder}/{part}"):
                shutil.copytree(f"{crate.folder}/{part}", f"{folder}/{part}")
        self.own = texts_of(crate)
        self.cycles = cycles_of(self.own, places)
        for twin in twins:
            self.copy_answers(twin)
        for place, function in all_functions(self.own):
            if not self.keeps(place, function):
                self.drop_answers(place, function.cycle)

    def keeps(self, place: Place, function: Function) -> bool:
        """Whether a function keeps its body."""
        return not function.has_body or function.cycle in self.cycles or place in self.places

    def drop_answers(self, place: Place, cycle: Optional[str]) -> None:
        """Removes the proof of a function's own body, and that of the cycle of which it was a member."""
        of_cycle = [at for at, _, _ in os.walk(self.proofs) if cycle and at.endswith(f"/+{cycle}")]
        for folder in [*answers_of(self.proofs, place), *of_cycle]:
            shutil.rmtree(folder, ignore_errors=True)

    def copy_answers(self, twin: Twin) -> None:
        """Gives a twin the proof of the function that it was made of."""
        for folder in [*answers_of(self.proofs, twin.of)]:
            to = f"{os.path.dirname(folder)}/{twin.name}"
            shutil.copytree(folder, to)
            for at, _, files in os.walk(to):
                for name in files:
                    self.rewrite(f"{at}/{name}", f"{at}/{name}", folder, to, None)
        for at in [path for path, _, _ in os.walk(self.proofs) if twin.cycle and path.endswith(f"/+{twin.cycle}")]:
            above = os.path.relpath(os.path.dirname(at), self.proofs).split("/")
            module = module_of(twin.at)
            # (the answers of a cycle through several modules name each member with its own)
            beyond = module[len([part for part in above if part != "."]) :] if not twin.owner else []
            to = "/".join([os.path.dirname(at), *beyond, twin.name])
            for name in [name for name in os.listdir(at) if name != LEMMAS]:
                self.rewrite(f"{at}/{name}", f"{to}/{name}", at, to, "::".join([*beyond, twin.of[1]]))

    def rewrite(self, source: str, target: str, folder: str, to: str, member: Optional[str]) -> None:
        """Writes a file of a proof for a twin, whose folder is another; of a cycle's, what is of one member."""
        with open(source, encoding="utf-8") as file:
            text = file.read()
        lemmas = source[: -len(".antt")]
        if member and os.path.basename(lemmas) == LEMMAS and os.path.isdir(lemmas):
            text = with_lemmas(lemmas, text)
        text = answers_of_member(text, member) if member else text
        was, new = (os.path.relpath(path, self.proofs).replace("/", ".") for path in (folder, to))
        if text is not None:
            os.makedirs(to, exist_ok=True)
            with open(target, "w", encoding="utf-8") as file:
                file.write(text.replace(f".proofs.{was}.", f".proofs.{new}."))

    def texts(self, edited: Texts) -> Texts:
        """The texts of the copy, with the given texts of edits instead of the crate's own."""
        made = {at: self.with_stubs(at, text) for at, text in {**self.own, **edited}.items() if at.startswith("src/")}
        root = "src/main.rt" if "src/main.rt" in made else "src/lib.rt"
        made[root] += NEVER
        return {**edited, **made}

    def with_stubs(self, at: str, text: str) -> str:
        """The text of a file, with stubs instead of the bodies."""
        lines = text.split("\n")
        for function in reversed(functions_of(text)):
            place = (at, function.name, function.owner)
            twins = [line for twin in self.twins if twin.of == place for line in ["", *twin.lines]]
            lines[function.last + 1 : function.last + 1] = twins
            if not self.keeps(place, function):
                space = re.match(" *", lines[function.header])[0]
                above = [
                    line
                    for line in lines[function.top : function.header]
                    if not (CYCLE.match(line) or TACTIC.match(line))
                ]
                lines[function.top : function.last] = [
                    *above, *lines[function.header : function.body + 1], f"{space}    {BODY}"
                ]
        return "\n".join(lines)

"""What a library passes on to the crates above it, from its sources: its statements.

A check of a crate reads of a library below it the types, the constants and the functions without their bodies, what
specs/ has, and of proofs/ the lemmas without their proofs: a definition is abstract unless it is an `abbrev` or
`unfoldable`, and what is abstract has no body elsewhere. So the statements of a library are its sources without

- comments;
- the bodies of functions, except those that a check above could look into: of constant functions, of a trait's, of
  those whose result is some type of a trait, and bodies that hold items of their own;
- the files of proofs/ that nothing names except proofs of this crate (so all answers), and in the others the bodies of
  abstract definitions, and the private definitions and the imports that nothing of the rest names.

What is not recognised stays, so that in doubt the statements change. A program links the code of what is below it, and
its check reads the bodies, too.
"""

import collections
import os
import re
from typing import Any, Dict, Iterable, List, Optional, Set, Tuple

import kit
from functions import Function, functions_of
from stubs import Texts

# a comment, a text or a character of Rust
TOKEN = re.compile(
    r"""//[^\n]*|/\*.*?\*/|\bb?r(?P<marks>\#*)".*?"(?P=marks)|"(?:\\.|[^"\\])*"|'(?:\\.[^'\n]*|[^\\'\n])'""", re.S
)
# what could pass a comment on, or make items of it
MACRO = re.compile(r"(?m)\bmacro_rules!|^\w+! ?[{(\[]")
# a result of which only the body says the type; and an item in a body
SOME_TYPE = re.compile(r"(?s)->.*\b(?:impl|dyn)\b")
ITEM = re.compile(
    r"(?m)^\s*(?:pub\b.*?|unsafe |default )?(?:impl|struct|enum|union|trait|mod|static|const|fn|type|extern|ghost)\b"
)
PUBLIC = re.compile(r" *pub (?!\()")
CONSTANT = re.compile(r"(?:pub\(\w+\) )?(?:const|static) (\w+):")
EMPTY = re.compile(r"impl\b(?:(?! for ).)* \{\n\}")
# in antt, the signature of an abstract definition, and a line that continues it
SIGNATURE = re.compile(r"(pub )?([^\s(){},;:]+) :(?:\s|$)")
RESERVED = {
    "data", "record", "deriving", "module", "where", "use", "mod", "pub", "package", "open", "as", "unfoldable",
    "abbrev", "axiom", "unfold", "unfolding", "ruleset", "mutual", "infix", "infixl", "infixr", "elim", "let", "in",
}
IMPORT = re.compile(r"(?s)use (\S+?)(?:\.\{([^{}]*)\}|(?: as (\S+))?)\s*\Z")
PLAIN = re.compile(r"[\w'-]+")
CITED = re.compile(r"\bRattle\.(\w*)((?:\.[^\s.{}();,]+)*)")


def code_of(text: str) -> str:
    """The text of a file of Rust with blanks in place of its comments, texts and characters, line by line."""
    blank = TOKEN.sub(lambda found: re.sub(r"[^\n]", " ", found[0]), text)
    return "\n".join(line.rstrip() for line in blank.split("\n"))


def without_comments(text: str) -> str:
    """The text of a file of Rust without its comments, line by line."""
    is_comment = lambda found: found[0].startswith(("//", "/*"))
    return TOKEN.sub(lambda found: "\n" * found[0].count("\n") if is_comment(found) else found[0], text)


def holder_of(lines: List[str], function: Function) -> str:
    """The line that begins what holds a function, or the function itself: none further in comes before it."""
    above = (lines[at] for at in range(function.header, -1, -1))
    return next(line for line in above if line and not line.startswith((" ", "}")))


def is_hidden(function: Function, lines: List[str]) -> bool:
    """Whether no check above can read the body of a function in these lines of code, or what is in it."""
    header = "\n".join(lines[function.header : function.body + 1])
    body = lines[function.body + 1 : function.last]
    space = re.match(" *", header)[0]
    is_held = space and not holder_of(lines, function).startswith("impl")
    is_laid_out = all(line.startswith(f"{space}    ") or not line for line in body)
    is_read = SOME_TYPE.search(header) or ITEM.search("\n".join(body))
    return function.has_body and is_laid_out and not is_held and not is_read


def is_own(function: Function, lines: List[str]) -> bool:
    """Whether a function is the crate's own: neither public nor of a trait."""
    holder = holder_of(lines, function)
    is_of_trait = function.is_of_trait or re.search(r"\bfor\b", holder) or not holder.endswith("{")
    return not (lines[function.header].startswith(" ") and is_of_trait or PUBLIC.match(lines[function.header]))


class OfRust:
    """A file of src/ without its comments and without the bodies of functions that no check above can read."""

    def __init__(self, text: str) -> None:
        code = code_of(text)
        self.whole = text if MACRO.search(code) else ""
        self.lines, self.own, self.has_bodies = without_comments(text).split("\n"), [], False
        lines = code.split("\n")
        for function in functions_of(code):
            if not is_hidden(function, lines):
                self.has_bodies = True
                continue
            self.lines[function.body + 1 : function.last] = [""] * (function.last - function.body - 1)
            if is_own(function, lines):
                self.own.append(function)

    def text(self, words: Dict[str, int]) -> str:
        """What the file passes on, where these words are named so many times: no functions that are the crate's own and
        not named, no constants of that sort, which name themselves once, and no imports that the rest does not need."""
        if self.whole:
            return self.whole
        lines = [*self.lines]
        for function in self.own:
            if not words.get(function.name):
                lines[function.top : function.last + 1] = [""] * (function.last + 1 - function.top)
        items = items_of([line.rstrip() for line in lines if line.strip()])
        items = [item for item in items if not (CONSTANT.match(item) and words.get(CONSTANT.match(item)[1]) == 1)]
        items = [item for item in items if not EMPTY.fullmatch(item)]
        return "\n".join(items if self.has_bodies else without_unneeded(items))


def without_unneeded(items: List[str]) -> List[str]:
    """Items of Rust without the imports that the others do not need, and without the names of modules."""
    rest = [item for item in items if not re.match(r"(?:ghost )?use |mod \w+;$", item)]
    text, needs = "\n".join(rest), []
    for item in items:
        if item.startswith("ghost use "):
            needs.append(needed(item.removeprefix("ghost ").rstrip(";"), text))
        elif item.startswith("use "):
            needs += [path for path in paths_of(item[4:].rstrip(";")) if is_named(re.split(r"::| as ", path)[-1], text)]
    return [*filter(None, needs), *rest]


def paths_of(tree: str) -> List[str]:
    """The paths that an import of Rust names."""
    before, brace, inside = tree.strip().partition("{")
    if not brace:
        return [before.removesuffix("::self")]
    depth, parts = 0, [""]
    for letter in inside.rpartition("}")[0]:
        depth += {"{": 1, "}": -1}.get(letter, 0)
        parts = [*parts, ""] if letter == "," and not depth else [*parts[:-1], parts[-1] + letter]
    return [path for part in parts if part.strip() for path in paths_of(before + part.strip())]


def uncommented(text: str) -> List[str]:
    """The lines of a file of antt that are neither comments nor blank."""
    return [line.rstrip() for line in text.split("\n") if line.strip() and not re.match(r"\s*--(?:\s|$)", line)]


def items_of(lines: List[str]) -> List[str]:
    """The items of a file, or of a block of one: a line, with those that are indented further or close brackets."""
    space, found = re.match(" *", lines[0])[0] if lines else "", []
    for line in lines:
        if found and line.startswith(tuple(space + letter for letter in " )]}")):
            found[-1] += f"\n{line}"
        else:
            found.append(line)
    return found


def without_proofs(lines: List[str]) -> List[str]:
    """The items of a file of antt without the clauses of abstract definitions, which follow their signatures."""
    kept, own = [], None
    for item in items_of(lines):
        begun = item.strip()
        signed = SIGNATURE.match(begun)
        if signed and signed[2] not in RESERVED:
            own = signed[2]
        elif own and begun.startswith("unfolding "):
            continue
        elif own and begun.split()[0] == own:
            continue
        else:
            own = None
            item = of_block(item)
        kept.append(item)
    return kept


def of_block(item: str) -> str:
    """An item that is no signature: of a module of a file, what it passes on."""
    head, *rest = item.split("\n")
    if re.match(r"\s*(?:pub )?module .* where$", head) and rest:
        return "\n".join([head, *without_proofs(rest)])
    return item


def is_named(name: str, text: str) -> bool:
    """Whether a text may name something. An operator may, since its parts may be apart."""
    return not PLAIN.fullmatch(name) or name in text


def without_unnamed(items: List[str]) -> List[str]:
    """The items of a file of antt without the private definitions that the others don't name, and without what the rest
    does not need of the imports."""
    imports = [item for item in items if item.startswith("use ")]
    others = [item for item in items if not item.startswith("use ")]
    text = "\n".join(others)
    rest = [item for item in others if not (is_private(item) and text.count(SIGNATURE.match(item)[2]) == 1)]
    text = "\n".join(rest)
    return [*filter(None, (needed(item, text) for item in imports)), *rest]


def is_private(item: str) -> bool:
    """Whether an item is the signature of a private definition, which is no operator."""
    signed = SIGNATURE.match(item)
    return bool(signed and not signed[1] and signed[2] not in RESERVED and PLAIN.fullmatch(signed[2]))


def needed(item: str, text: str) -> Optional[str]:
    """What a text needs of an import, or None."""
    found = IMPORT.match(item)
    if not found:
        return item
    if found[2] is None:
        return item if is_named(found[3] or found[1].split(".")[-1], text) else None
    names = [name.strip() for name in found[2].split(",") if name.strip()]
    kept = [name for name in names if is_named(name.split(" as ")[-1].strip(), text)]
    return f"use {found[1]}.{{{', '.join(kept)}}}" if kept else None


def of_proofs(text: str) -> str:
    """What a file of proofs/ passes on."""
    return "\n".join(without_unnamed(without_proofs(uncommented(text))))


def of_specs(text: str) -> str:
    """What a file of specs/ passes on."""
    return "\n".join(uncommented(text))


def cited_in(texts: Iterable[str]) -> Dict[str, Set[str]]:
    """What texts name of each library: the paths below it; of the library "", what may be of any."""
    found: Dict[str, Set[str]] = {}
    for text in texts:
        for name, path in CITED.findall(text):
            found.setdefault(name, set()).add(path[1:])
    return found


def is_cited(module: str, paths: Set[str]) -> bool:
    """Whether one of the paths below a library leads to a module of its proofs/, to one below that, or into it, or to
    what is neither specs/ nor a part of proofs/."""
    own = f"proofs.{module}"
    return any(
        path == own or path.startswith(f"{own}.") or own.startswith(f"{path}.") or not path
        or path.split(".")[0] not in ("specs", "proofs")
        for path in paths
    )  # fmt: skip


def words_in(texts: Iterable[str]) -> Dict[str, int]:
    """The words of some texts, each with how many times it is there."""
    return collections.Counter(word for text in texts for word in re.findall(r"\w+", text))


def of_src(texts: Texts, others: Iterable[str]) -> Texts:
    """What the files of src/ pass on, but for those of which nothing is left, if these others are passed on, too."""
    files = {at: OfRust(text) for at, text in texts.items()}
    words = words_in([*(file.text({}) for file in files.values()), *others])
    passed = {at: file.text(words) for at, file in files.items()}
    return {at: text for at, text in passed.items() if text}


class Sources:
    """The sources of the crates of a tree, by their paths below each, and what each passes on to those above, whose
    edits are given by the names of the crates."""

    def __init__(self, tree: str, crates: Iterable[Any], edits: Dict[str, Texts]) -> None:
        self.rows = text_of(f"{tree}/crates.txt").split("\n")
        self.texts: Dict[str, Texts] = {
            crate.name: {
                os.path.relpath(path, crate.folder): text_of(path) for path in kit.rt().rtlib.files_of(crate.folder)
            }
            for crate in crates
        }
        # (an edit may name what its crate does not)
        self.cited = {
            name: cited_in([*texts.values(), *edits.get(name, {}).values()]) for name, texts in self.texts.items()
        }
        self.passed: Dict[str, Texts] = {}
        self.sums: Dict[Tuple[str, bool], str] = {}
        self.lower: Dict[str, Set[str]] = {}

    def decides(self, crate: Any) -> str:
        """The sum of what decides a check of a crate: its own sources, and what the libraries below it pass on, or, for
        what links their code, all of their sources; and their rows of crates.txt."""
        links = crate.is_program or getattr(crate, "is_static", True)
        below = [self.sum_of(name, links) for name in sorted(self.below(crate))]
        return kit.sum_of(self.sum_of(crate.name, True), below)

    def below(self, crate: Any) -> Set[str]:
        """The names of the tree's libraries below a crate."""
        if crate.name not in self.lower:
            found = {name for lower in crate.deps for name in (lower.name, *self.below(lower))}
            self.lower[crate.name] = found
        return self.lower[crate.name]

    def sum_of(self, name: str, whole: bool) -> str:
        """The sum of a crate's row of crates.txt, and of all its sources, or of what it passes on."""
        if (name, whole) not in self.sums:
            rows = [row for row in self.rows if row.partition(":")[0].split()[:1] == [name]]
            texts = self.texts[name] if whole else self.passed_on(name)
            self.sums[name, whole] = kit.sum_of(name, rows or self.rows, sorted(texts.items()))
        return self.sums[name, whole]

    def passed_on(self, name: str) -> Texts:
        """What a library passes on, by its files."""
        if name not in self.passed:
            texts = self.texts[name]
            rust = {at: text for at, text in texts.items() if at.endswith(".rt")}
            specs = {at: of_specs(text) for at, text in texts.items() if at.startswith("specs/")}
            citing = [cited for other, cited in self.cited.items() if other != name]
            citing.append(cited_in([*rust.values(), *specs.values()]))
            paths = {path for cited in citing for whose in (name, "") for path in cited.get(whose, ())}
            found = self.with_proofs(name, specs, paths)
            self.passed[name] = {**found, **of_src(rust, found.values())}
        return self.passed[name]

    def with_proofs(self, name: str, found: Texts, paths: Set[str]) -> Texts:
        """Adds the files of proofs/ to which paths lead, or which these name."""
        while paths:
            cited = {
                at: of_proofs(text)
                for at, text in self.texts[name].items()
                if at.startswith("proofs/") and at not in found and is_cited(module_at(at), paths)
            }
            found = {**found, **cited}
            paths = cited_in(cited.values()).get(name, set())
        return found


def text_of(path: str) -> str:
    """The text of a file; bytes that are no text stay apart."""
    with open(path, encoding="utf-8", errors="surrogateescape") as file:
        return file.read()


def module_at(at: str) -> str:
    """The module of a file of proofs/, below that."""
    return at.removeprefix("proofs/").removesuffix(".antt").replace("/", ".")

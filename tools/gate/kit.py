"""The Rattle kit: its command `rt` as a library, and its sum.

The gate is `rt ci` with some of its parts replaced: when each job runs (`in_lanes`), what proves a crate (`Crate.ci`),
how edits are tried (`add_edits`, or the edits' tasks of a kit that keeps nothing), and what is kept of earlier runs
(`Kept`, which such a kit has not). Everything else that `rt ci` checks of a tree, a crate, a program and a test is done
by `rt` itself. If a kit's `rt` has other parts, the gate runs its `rt ci` unchanged, which takes longer and checks the
same.
"""

import contextlib
import functools
import hashlib
import importlib.machinery
import importlib.util
import os
import shutil
import sys
from types import ModuleType
from typing import Any, Callable, ContextManager, List

# What the gate calls of `rt`.
PARTS = (
    "in_lanes", "must_fail", "checked", "edits_of", "read_edit", "processors", "free", "need", "say",
    "Crate", "unread", "KIT",
)
# What runs the whole, and what is replaced of it: in kits that keep what they prove, and in those that keep nothing.
PARTS_OF_KEEPING, PARTS_WITHOUT = ("ci_over", "add_edits", "sweep", "Kept"), ("ci_from_nothing", "must_fail_all")
# What decides a verdict: the program that proves, the two scripts that hold it to their rules, and what tells the
# versions of all the rest.
SUMMED = ("KIT-ID", "WHAT", "bin/rattle", "bin/rattle-link", "bin/rt", "bin/rtlib.py")


@functools.lru_cache(None)
def rt() -> ModuleType:
    """The kit's command as a module."""
    command = shutil.which("rt")
    if not command:
        raise SystemExit("gate: the command rt of the Rattle kit is not on the path")
    sys.dont_write_bytecode = True
    loader = importlib.machinery.SourceFileLoader("rattle_kit_rt", os.path.realpath(command))
    made = importlib.util.module_from_spec(importlib.util.spec_from_loader(loader.name, loader))
    loader.exec_module(made)
    return made


def keeps() -> bool:
    """Whether the kit's command keeps what it proves."""
    return any(hasattr(rt(), part) for part in PARTS_OF_KEEPING)


def lacking() -> List[str]:
    """The parts that the gate replaces or calls and that this kit's command has not."""
    wanted = (*PARTS, *(PARTS_OF_KEEPING if keeps() else PARTS_WITHOUT))
    return [part for part in wanted if not hasattr(rt(), part)]


def is_refusal(kind: Any) -> bool:
    """Whether what `must_fail` says of an edit is that it is refused: one of two kinds, or, in a kit that keeps
    nothing, the answer itself."""
    return kind in (rt().REFUSED, rt().AT_LIMIT) if keeps() else kind


def verdict_of_edit(is_refused: bool) -> Any:
    """What `rt ci` calls an edit that is refused, or one that is not."""
    return (rt().REFUSED if is_refused else rt().MISSED) if keeps() else is_refused


class NothingKept:
    """In the place of what `rt ci` keeps of earlier runs: the gate has a store of its own."""

    at, is_full = None, False

    def __init__(self, *given: Any) -> None:
        pass

    def key(self, crate: Any) -> str:
        return ""

    def give(self, crate: Any, tests: bool, key: str) -> bool:
        return False

    def in_turn(self, crate: Any, tests: bool, key: str) -> ContextManager[bool]:
        return contextlib.nullcontext(False)

    def keep(self, crate: Any, tests: bool, key: str) -> None:
        pass

    def is_built(self, crate: Any) -> None:
        pass

    def shrink(self) -> None:
        pass

    def tell(self) -> None:
        pass


def say_less(usual: Callable[..., None]) -> Callable[..., None]:
    """`rt ci` counts at its end what it kept itself, which is nothing here."""
    return lambda text, *given: usual(text.partition("; every proof and")[0], *given)


def name() -> str:
    """The kit's own name for itself, as `rt version` prints it."""
    with open(f"{rt().KIT}/KIT-ID", encoding="utf-8") as file:
        return file.readline().strip()


def file_sum(path: str) -> str:
    """The SHA-256 of a file."""
    with open(path, "rb") as file:
        return hashlib.file_digest(file, "sha256").hexdigest()


def sum_of(*parts: Any) -> str:
    """The sum of some values."""
    return hashlib.sha256(repr(parts).encode()).hexdigest()


@functools.lru_cache(None)
def kit_sum() -> str:
    """The sum of the files of the kit that decide a verdict."""
    return sum_of(*(file_sum(f"{rt().KIT}/{file}") for file in SUMMED))


def files_below(folder: str) -> List[str]:
    """The paths of all files below a folder, relative to it, sorted."""
    found = [os.path.join(at, file) for at, _, files in os.walk(folder) for file in files]
    return sorted(os.path.relpath(path, folder) for path in found)

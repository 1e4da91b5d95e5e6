"""Copies of several crates in one check.

Before a check proves anything it reads the libraries below its crate, which takes as long as some ten small functions.
So copies in which edits are tried, of several crates and several of one, are libraries from source of one empty crate,
each under a name of its own, over the libraries as they were built. What the check says of a copy is read as if its
crate had been checked alone.
"""

import os
import re
import shutil
import subprocess
from typing import Any, Iterable, List

import kit
import stubs
from stubs import Texts

Ran = subprocess.CompletedProcess
NAME = "edits_side_by_side"
# replaces a copy's folder (no text of a check contains it)
HERE = "\0"


class Copy:
    """A copy of a crate as a library from source: its name, its texts, and the given functions, by their names below
    the crate."""

    def __init__(self, stubbed: stubs.Stubbed, name: str, texts: Texts, asked: Iterable[str]) -> None:
        self.crate, self.name, self.texts, self.asked = stubbed.crate, name, texts, [*asked]
        self.folder = stubbed.crate.folder
        for at, text in texts.items():
            with open(f"{self.folder}/{at}", "w", encoding="utf-8") as file:
                file.write(text)
        for path in stubs.files_below(self.folder):
            self.rename_in(path)

    def rename_in(self, path: str) -> None:
        """Has a file name the copy's modules, and a function of C of its own."""
        with open(path, encoding="utf-8") as file:
            text = file.read()
        renamed = re.sub(rf"\bRattle\.{self.crate.name}\b", f"Rattle.{self.name}", text)
        renamed = renamed.replace(stubs.KEEPS, f"{stubs.KEEPS}_{self.name}")
        if renamed != text:
            with open(path, "w", encoding="utf-8") as file:
                file.write(renamed)

    def words(self) -> List[str]:
        """The words of `rt` for the copy."""
        uses = dict.fromkeys(["core", *self.crate.of_kit, *[lower.name for lower in self.crate.deps]])
        return ["--lib", f"{self.name}:{','.join(uses)}={self.folder}/src/lib.rt"]

    def said(self, ran: Ran) -> Ran:
        """What a check says of this copy, as a check of its crate alone would."""
        told, function = [], f"fn {self.name}::"
        for line in ran.stdout.replace(f"{self.folder}/", HERE).split("\n"):
            if line.startswith(function):
                line = f"{HERE}fn {self.crate.name}::{line[len(function):]}"
            if HERE in line:
                told.append(line.replace(HERE, ""))
        return Ran(ran.args, ran.returncode, "\n".join([*told, ""]))


class Together:
    """A crate with nothing in it, in a folder that is made here, over copies of others."""

    def __init__(self, folder: str, copies: List[Copy]) -> None:
        self.folder, self.copies = folder, copies
        shutil.rmtree(folder, ignore_errors=True)
        os.makedirs(f"{folder}/src")
        with open(f"{folder}/src/lib.rt", "w", encoding="utf-8"):
            pass

    def asked(self) -> List[str]:
        """The words of a check that ask about the functions of all copies."""
        return [word for copy in self.copies for name in copy.asked for word in ("--only", f"{copy.name}::{name}")]

    def words(self, flags: List[str], keeps: bool = False) -> List[str]:
        """The words of a check of this crate, as those that `rt` has for one of its own."""
        kits, crates = f"{kit.rt().KIT}/rlibs", [copy.crate for copy in self.copies]
        of_kit = sorted({"core", *(name for crate in crates for name in crate.of_kit)})
        lower = {lower.name: lower.rlib for crate in crates for lower in crate.deps}
        below = {os.path.dirname(lower.rlib): None for crate in crates for lower in crate.below()}
        words = ["--crate-name", NAME, "src/lib.rt"]
        for name, rlib in [*((name, f"{kits}/{name}.rlib") for name in of_kit), *lower.items()]:
            words += ["--extern", f"{name}={rlib}"]
        for folder in [kits, *below]:
            words += ["-L", f"dependency={folder}"]
        for copy in self.copies:
            words += copy.words()
        words += [
            "--antt-project",
            f"{kit.rt().KIT}/rattle/logic/antt-project.json",
            "--logic-built",
            f"{kit.rt().KIT}/logic_built",
        ]
        return [*words, *flags]

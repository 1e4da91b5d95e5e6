"""A crate's verdict: taken from the store, or made from nothing and kept there.

What decides a verdict is in its key: the kit, the crate's own files and its row of crates.txt, the key of each library
below it with the sum of what was built of it, and the handles that the repository allows.
"""

import json
import os
import re
from typing import Any, Dict, List, Optional

import kit
import page
from store import Store

# To be raised when what is kept, or how it is made, changes.
FORM = "2"
store = Store(None)


def facts_file(crate: Any) -> str:
    """The file in which the run notes facts about a crate."""
    return f"{crate.folder}/out/facts.json"


def facts_of(crate: Any, tests: bool = False) -> Optional[Dict[str, Any]]:
    """What the run has noted of a crate: its key, the sum of what was built, its functions, and whether it was kept."""
    try:
        with open(f"{facts_file(crate)}{'.tests' if tests else ''}", encoding="utf-8") as file:
            return json.load(file)
    except OSError:
        return {}


def key_of(crate: Any, tests: bool) -> str:
    """The key of a crate's verdict."""
    rtlib = kit.rt().rtlib
    own = [(os.path.relpath(file, crate.folder), kit.file_sum(file)) for file in sorted(rtlib.files_of(crate.folder))]
    below = [(lower.name, facts_of(lower)["key"], facts_of(lower)["sum"]) for lower in crate.below()]
    # (the handles that HANDLES allows come last, since most repositories allow none)
    module = [page.MODULE] if page.is_kept_of(crate) else []
    return kit.sum_of(
        FORM,
        kit.kit_sum(),
        crate.name,
        sorted(crate.said.items(), key=repr),
        own,
        below,
        tests,
        *kit.rt().Crate.allowed,
        *module,
    )


def files_made(crate: Any, tests: bool) -> List[str]:
    """What a verdict leaves in out/, relative to it: a library, a program as each compiler builds it and its module, or
    the program of the tests."""
    out = f"{crate.folder}/out"
    if tests:
        names = [f"{crate.name}_tests"]
    elif crate.is_program:
        names = [crate.name + backend for backend in kit.rt().BACKENDS.values()]
        names += [page.MODULE] if page.is_kept_of(crate) else []
    else:
        return [f"rlib/{crate.name}.rlib/{file}" for file in kit.files_below(crate.rlib)]
    return [name for name in names if os.path.isfile(f"{out}/{name}")]


def functions_in(crate: Any) -> List[str]:
    """The functions that the proof has reported, by their names below the crate."""
    crate.out.flush()
    crate.out.seek(0)
    found = re.findall(rf"(?m)^fn {crate.name}::(\S+): proved", crate.out.read())
    crate.out.seek(0, os.SEEK_END)
    return found


def note(crate: Any, tests: bool, facts: Dict[str, Any]) -> None:
    """Notes what the run knows of a crate, by a rename, since the proof of one above may read it at any time."""
    path = f"{facts_file(crate)}{'.tests' if tests else ''}"
    with open(f"{path}.new", "w", encoding="utf-8") as file:
        json.dump(facts, file)
    os.replace(f"{path}.new", path)


def make_stamps_once() -> None:
    """Has each crate's stamp made once in a process. A kit makes it of those of the crates that it names, each anew, so
    that of a crate above many others took a minute, twice for each proof. (No source changes during a run.)"""
    usual, known = kit.rt().Crate.stamp, {}

    def stamp(crate: Any) -> str:
        """The sum of what a crate is made from."""
        if crate.folder not in known:
            known[crate.folder] = usual(crate)
        return known[crate.folder]

    kit.rt().Crate.stamp = stamp


def replace_ci() -> None:
    """Has `rt ci` take a crate's verdict from here."""
    usual = kit.rt().Crate.ci

    def ci(crate: Any, flags: List[str], tests: bool) -> int:
        """Proves a crate, or takes its verdict from the store."""
        key, out = key_of(crate, tests), f"{crate.folder}/out"
        facts = store.take(key, out)
        if facts:
            note(crate, tests, {**facts, "kept": True})
            return 0
        status = usual(crate, flags, tests)
        if status:
            return status
        files = files_made(crate, tests)
        built = kit.sum_of([(file, kit.file_sum(f"{out}/{file}")) for file in files])
        facts = {"crate": crate.name, "key": key, "sum": built, "functions": functions_in(crate)}
        store.put(key, facts, out, files)
        note(crate, tests, {**facts, "kept": False})
        return 0

    kit.rt().Crate.ci = ci
    page.keep_module()

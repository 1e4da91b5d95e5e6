"""The page of the compiler: the module that it is made from, which is kept as the program is built, and the released
page, which is rebuilt and tried.

What a machine lacks for that is reported by name and is not a failure, and neither is a page of other sources there,
since it could not be fixed; if nothing is missing, it is one.
"""

import filecmp
import os
import re
import shutil
import subprocess
import tempfile
from typing import Any, Iterable, List, Optional, Tuple

import ends
import kit

PROGRAM, MODULE = "pascal", "pascal.bc"
RELEASED = "released/playground.html"
# the first whose WebAssembly passes numbers of 64 bits to scripts
OLDEST_NODE = 16
# replaces the kit's clang (which gets no environment)
KEEPER = """#!/bin/sh
for word; do
    case $word in *.bc) cp "$word" '{module}' ;; esac
done
exec '{clang}' "$@"
"""


def is_kept_of(crate: Any) -> bool:
    """Whether the module of a crate's program is kept: what its page is made of."""
    return crate.name == PROGRAM and hasattr(kit.rt().Crate, "compile_by")


def lay_toolchain(folder: str, module: str) -> None:
    """Makes a folder as the kit's toolchain, whose clang keeps the module that it compiles."""
    usual = f"{kit.rt().KIT}/toolchain"
    os.mkdir(f"{folder}/bin")
    for path in (*os.listdir(usual), *(f"bin/{name}" for name in os.listdir(f"{usual}/bin"))):
        if path not in ("bin", "bin/clang"):
            os.symlink(f"{usual}/{path}", f"{folder}/{path}")
    with open(f"{folder}/bin/clang", "w", encoding="utf-8") as file:
        file.write(KEEPER.format(module=module, clang=f"{usual}/bin/clang"))
    os.chmod(f"{folder}/bin/clang", 0o755)


def keep_module() -> None:
    """Makes the build of the program by LLVM leave its module next to it."""
    if not hasattr(kit.rt().Crate, "compile_by"):
        return
    usual = kit.rt().Crate.compile_by

    def compile_by(crate: Any, backend: str, words: List[str], to: str) -> int:
        """Compiles a program, and keeps its module."""
        if backend != "llvm" or not is_kept_of(crate):
            return usual(crate, backend, words, to)
        at = words.index("--toolchain") + 1
        with tempfile.TemporaryDirectory(prefix="toolchain-") as folder:
            lay_toolchain(folder, f"{crate.folder}/out/{MODULE}")
            return usual(crate, backend, [*words[:at], folder, *words[at + 1 :]], to)

    kit.rt().Crate.compile_by = compile_by


# ---- the page


def has_page(tree: str) -> bool:
    """Whether the tree has a page."""
    return os.path.isfile(f"{tree}/web/build")


def build(tree: str, *words: str) -> Tuple[Optional[str], Optional[str]]:
    """Runs web/build, and returns what it prints and why it failed, one of which is None."""
    ran = subprocess.run([f"{tree}/web/build", *words], capture_output=True, text=True, errors="replace")
    return (None, ran.stderr.strip()) if ran.returncode else (ran.stdout.strip(), None)


def lacks(tree: str) -> Optional[str]:
    """What this machine lacks to make the page, in words, or None."""
    if not hasattr(kit.rt().Crate, "compile_by"):
        return "this kit builds programs in another way, which keeps no module"
    return build(tree, "--tools")[1]


def make(tree: str) -> Tuple[Optional[str], Optional[str]]:
    """Makes the page of the run's program, and returns its path, or why it failed; one of the two is None."""
    module, made = f"{tree}/crates/{PROGRAM}/out/{MODULE}", f"{tree}/web/out/playground.html"
    if not os.path.isfile(module):
        return None, "the build of the program left no module"
    os.makedirs(os.path.dirname(made), exist_ok=True)
    _, why = build(tree, "--module", module, "--to", made)
    return (None, f"the page can't be made: {why}") if why else (made, None)


def text_of(path: str) -> str:
    """The text of a file, or nothing if it can't be read."""
    try:
        with open(path, encoding="utf-8") as file:
            return file.read().strip()
    except OSError:
        return ""


def sums(tree: str, page: str) -> str:
    """The sum of what the page is made from, and its own."""
    return f"{build(tree, '--sum')[0]}\n{kit.file_sum(page)}"


def release(tree: str, made: str, top: str) -> None:
    """Writes the page that a run has made into a tree, with its sums and what made it."""
    shutil.copyfile(made, f"{top}/{RELEASED}")
    for ending, text in (("sum", sums(tree, made)), ("tools", build(tree, "--tools")[0])):
        with open(f"{top}/released/playground.{ending}", "w", encoding="utf-8") as file:
            file.write(f"{text}\n")


def is_changed(tree: str) -> bool:
    """Whether the released page is not the one that was written with its sums."""
    own = text_of(f"{tree}/released/playground.sum").rpartition("\n")[2]
    return os.path.isfile(f"{tree}/{RELEASED}") and own != kit.file_sum(f"{tree}/{RELEASED}")


def is_stale(tree: str) -> bool:
    """Whether there is no released page, or one of other sources than the tree's."""
    kept = f"{tree}/{RELEASED}"
    return not os.path.isfile(kept) or text_of(f"{tree}/released/playground.sum") != sums(tree, kept)


def look_at_release(tree: str, made: str) -> Optional[str]:
    """Why the released page is not what this run made. (Other tools may make other bytes.)"""
    if is_stale(tree):
        return "there is no released page of these sources: `./gate --release` writes it"
    if filecmp.cmp(made, f"{tree}/{RELEASED}", shallow=False):
        return None
    if build(tree, "--tools")[0] == text_of(f"{tree}/released/playground.tools"):
        return "the released page is not, byte for byte, what was made of the same sources"
    print("the released page was made by other tools, and has other bytes", flush=True)
    return None


def lacks_node() -> Optional[str]:
    """Why the cases can't be run over a page here, or None."""
    if not shutil.which("node"):
        return "the command node is not on the path"
    ran = subprocess.run(["node", "--version"], capture_output=True, text=True)
    found = re.match(r"v(\d+)\.", ran.stdout)
    return None if found and int(found[1]) >= OLDEST_NODE else f"node is older than {OLDEST_NODE}"


def run_cases(tree: str, page: str) -> Tuple[int, int]:
    """Runs the cases that a page can know over one, and returns how much passed and failed."""
    why = lacks_node()
    if why:
        print(f"the cases are not run over the page: {why}", flush=True)
        return 0, 0
    words = [f"{tree}/web/test", "--page", page]
    ran = subprocess.run(words, stdout=subprocess.PIPE, stderr=subprocess.STDOUT, text=True, errors="replace")
    well, bad = ends.count_in(ran.stdout)
    bad = bad or int(bool(ran.returncode) or not well)
    if bad:
        print(ran.stdout, end="")
    print(f"tests over the page: {well} passed, {bad} failed", flush=True)
    return well, bad


def failed(why: str) -> Tuple[int, int]:
    """Prints a failure, and returns its counts."""
    print(f"FAILED: {why}", flush=True)
    return 0, 1


def look_at_made(tree: str, tops: Iterable[str]) -> Tuple[int, int]:
    """Makes the page and tries it, writes it into some trees if it passes, and returns how much passed and failed."""
    made, why = make(tree)
    if why:
        return failed(why)
    well, bad = run_cases(tree, made)
    for top in () if bad else tops:
        release(tree, made, top)
    why = look_at_release(tree, made)
    more = failed(why) if why else (1, 0)
    return well + more[0], bad + more[1]


def look_at_kept(tree: str, why: str) -> Tuple[int, int]:
    """Tries the released page if none can be made, for the given reason, and returns how much passed and failed."""
    print(f"the page is not made anew: {why}", flush=True)
    if is_changed(tree):
        return failed("the released page is not the one whose sum stands beside it")
    if is_stale(tree):
        print(
            "there is no released page of these sources to try; `./gate --release` writes it where all for it is there",
            flush=True,
        )
        return 0, 0
    well, bad = run_cases(tree, f"{tree}/{RELEASED}")
    return well + 1, bad


def look(tree: str, tops: Iterable[str]) -> Tuple[int, int]:
    """Checks the page, writes it into some trees if it can be made, and returns how much passed and failed."""
    if not has_page(tree):
        return 0, 0
    why = lacks(tree)
    return look_at_kept(tree, why) if why else look_at_made(tree, tops)

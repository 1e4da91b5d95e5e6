"""Tries the launcher and the installer on small trees.

What an editor leaves, changed sources, links, missing tools, another prefix.
"""

from __future__ import annotations

import contextlib
import hashlib
import os
import re
import shutil
import subprocess
import tempfile
import time
from typing import Callable, Dict, Iterator, List, Optional

from cases import TOP

SECONDS = 60
SECONDS_TO_REMEMBER = 20
# what is taken from this repository
SCRIPTS = ("pascal", "install", "test", "tools/sources_sum", "tools/stands_on", "man", "completions")
SOURCE = "crates/low/src/lib.rt"
FILES = {
    "crates.txt": "low:\nother:\npascal: low\n",
    SOURCE: "// A library.\n",
    "crates/low/proofs/lib/Answers.antt": "-- An answer.\n",
    "crates/other/src/lib.rt": "// Another library.\n",
    "crates/pascal/src/main.rt": "// A program.\n",
    "crates/pascal/specs/Lib.antt": "-- A definition.\n",
    # (it replaces the released program: it prints its words and the sum of the sources that it is given)
    "released/pascal": '#!/bin/sh\necho "released $* ${FONKJULD_SOURCES-nothing}"\n',
}
# what the scripts need of a machine
COREUTILS = ("cat", "chmod", "cp", "dirname", "mkdir", "mv", "readlink", "rm", "rmdir", "sha256sum", "sort", "stat")
RUNS = r"released go \w+\nstatus 0\n"
IS_OF_OTHER_SOURCES = r"pascal: no program of these sources .* rt of the Rattle kit is not on the path\nstatus 1\n"
WELL = r".*status 0\n"
IS_NOT_OURS = r"install: not installed by this, [^\n]*/%s\nstatus 1\n"


def write(path: str, text: str, mode: int = 0o644) -> None:
    """Writes a file, and makes its folder if necessary."""
    os.makedirs(os.path.dirname(path), exist_ok=True)
    with open(path, "w", encoding="utf-8") as file:
        file.write(text)
    os.chmod(path, mode)


def said_by(words: List[str], **how: object) -> str:
    """What a command says, and its status."""
    given = {"stdin": subprocess.DEVNULL, "stdout": subprocess.PIPE, "stderr": subprocess.STDOUT, **how}
    ran = subprocess.run(words, text=True, errors="replace", timeout=SECONDS, check=False, **given)
    return f"{ran.stdout}status {ran.returncode}\n"


def sum_of(path: str) -> str:
    """The SHA-256 of a file."""
    with open(path, "rb") as file:
        return hashlib.sha256(file.read()).hexdigest()


class Tree:
    """A small tree with a program that is released, a home of its own, and what is on the path there."""

    def __init__(self, at: str) -> None:
        self.at, self.tree, self.home, self.path = at, f"{at}/a tree", f"{at}/home", f"{at}/path"
        self.place = f"{at}/place"
        for path, text in FILES.items():
            write(f"{self.tree}/{path}", text, 0o755 if path == "released/pascal" else 0o644)
        for script in SCRIPTS:
            os.makedirs(os.path.dirname(f"{self.tree}/{script}"), exist_ok=True)
            (shutil.copytree if os.path.isdir(f"{TOP}/{script}") else shutil.copy2)(
                f"{TOP}/{script}", f"{self.tree}/{script}"
            )
        os.makedirs(f"{self.home}/.cache")
        os.makedirs(self.path)
        for tool in ("bash", "sh", *COREUTILS):
            os.symlink(shutil.which(tool) or f"/bin/{tool}", f"{self.path}/{tool}")
        self.release()

    def release(self) -> None:
        """Writes the sums next to the released program."""
        sources = said_by([f"{self.tree}/tools/sources_sum", "pascal"]).split("\n")[0]
        write(f"{self.tree}/released/pascal.sum", f"{sources}\n{sum_of(f'{self.tree}/released/pascal')}\n")

    def ran(self, *words: str, **env: Optional[str]) -> str:
        """What a command of the tree says, and its status."""
        given = {"PATH": self.path, "HOME": self.home, **env}
        given = {name: value for name, value in given.items() if value is not None}
        return said_by([f"{self.tree}/{words[0]}", *words[1:]], env=given, cwd=self.at)

    def without(self, tool: str) -> str:
        """A path on which there is all but one tool."""
        with contextlib.suppress(FileExistsError):
            shutil.copytree(self.path, f"{self.at}/without {tool}", symlinks=True)
            os.remove(f"{self.at}/without {tool}/{tool}")
        return f"{self.at}/without {tool}"

    def is_remembered(self) -> bool:
        """Whether a start runs the program without reading the sources: their sum can't be computed without `sort`."""
        return re.fullmatch(RUNS, self.ran("pascal", "go", PATH=self.without("sort"))) is not None


@contextlib.contextmanager
def small_tree() -> Iterator[Tree]:
    """A small tree with the scripts, in a folder that is removed."""
    with tempfile.TemporaryDirectory(prefix="scripts-") as at:
        yield Tree(at)


def otherwise(what: str, said: str, wanted: str) -> List[str]:
    """How the output differs from a pattern."""
    return [] if re.fullmatch(wanted, said, re.S) else [f"{what}: wanted {wanted!r}, came {said!r}"]


# ---- the launcher


def editors_leave(tree: Tree) -> None:
    """What vim, emacs, nano, patch and others leave next to a source."""
    folder, name = os.path.split(f"{tree.tree}/{SOURCE}")
    for form in (".%s.swp", ".%s.swo", "%s~", "#%s#", "%s.orig", "%s.rej", "%s.bak", "4913", ".~lock.%s#", "%s.save"):
        write(f"{folder}/{form.replace('%s', name)}", "what an editor holds")
    os.symlink("user@machine.1:2", f"{folder}/.#{name}")
    write(f"{folder}/.idea/files.rt", "what an editor keeps")


def edited(tree: Tree) -> None:
    """Other text of the same length, and the time of the file as it was."""
    path = f"{tree.tree}/{SOURCE}"
    times = os.stat(path)
    write(path, FILES[SOURCE].replace("A library", "A Library"))
    os.utime(path, ns=(times.st_atime_ns, times.st_mtime_ns))


def replaced(tree: Tree) -> None:
    """As editors do that write a new file and rename it."""
    path = f"{tree.tree}/{SOURCE}"
    times = os.stat(path)
    write(f"{path}.new", FILES[SOURCE].replace("A library", "A Library"))
    os.utime(f"{path}.new", ns=(times.st_atime_ns, times.st_mtime_ns))
    os.rename(f"{path}.new", path)


def linked(tree: Tree) -> None:
    """A link instead of a source, to one with the same text."""
    os.rename(f"{tree.tree}/{SOURCE}", f"{tree.at}/elsewhere.rt")
    os.symlink(f"{tree.at}/elsewhere.rt", f"{tree.tree}/{SOURCE}")


def linked_folder(tree: Tree) -> None:
    """A link instead of a folder."""
    os.rename(f"{tree.tree}/crates/low/src", f"{tree.at}/elsewhere")
    os.symlink(f"{tree.at}/elsewhere", f"{tree.tree}/crates/low/src")


CHANGES: Dict[str, Callable[[Tree], None]] = {
    "a source is edited": edited,
    "a source is replaced": replaced,
    "a source is a link": linked,
    "a folder of sources is a link": linked_folder,
    "a source is new": lambda tree: write(f"{tree.tree}/crates/low/proofs/lib/new/Answers.antt", "-- New.\n"),
    "a folder of sources is new": lambda tree: write(f"{tree.tree}/crates/pascal/proofs/Lib.antt", "-- New.\n"),
    "a source is gone": lambda tree: os.remove(f"{tree.tree}/{SOURCE}"),
    "a row is changed": lambda tree: write(f"{tree.tree}/crates.txt", "low:\nother:\npascal: low other\n"),
    "the program is cut": lambda tree: write(f"{tree.tree}/released/pascal", FILES["released/pascal"][:-1], 0o755),
    "the program may not be run": lambda tree: os.chmod(f"{tree.tree}/released/pascal", 0o644),
}


def changes_are_seen() -> List[str]:
    """Each is seen by a start that would have to read all sources."""
    wrong = []
    for name, change in CHANGES.items():
        with small_tree() as tree:
            wrong += otherwise(f"before {name}", tree.ran("pascal", "go", HOME="/dev/null"), RUNS)
            change(tree)
            wrong += otherwise(name, tree.ran("pascal", "go", HOME="/dev/null"), IS_OF_OTHER_SOURCES)
    return wrong


def tells_nanoseconds() -> bool:
    """Whether the machine's `stat` shows times in nanoseconds: otherwise nothing is remembered, and each start reads
    all."""
    return re.fullmatch(r"\d+\.\d{9}\nstatus 0\n", said_by(["stat", "-c", "%.9Z", TOP])) is not None


def changes_are_seen_by_a_start_that_remembers() -> List[str]:
    """Each is seen once the sources are no more read, and what editors leave is not."""
    wrong, can_remember = [], tells_nanoseconds()
    with contextlib.ExitStack() as stack:
        trees = {name: stack.enter_context(small_tree()) for name in (*CHANGES, "editors")}
        for name, tree in trees.items():
            until = time.monotonic() + SECONDS_TO_REMEMBER
            while can_remember and not tree.is_remembered() and time.monotonic() < until:
                wrong += otherwise(f"before {name}", tree.ran("pascal", "go"), RUNS)
                time.sleep(0.2)
            wrong += [f"{name}: nothing is remembered"] if can_remember and not tree.is_remembered() else []
            CHANGES.get(name, editors_leave)(tree)
            wanted = RUNS if name == "editors" else IS_OF_OTHER_SOURCES
            for turn in ("first", "second"):
                wrong += otherwise(f"{name}, {turn} start", tree.ran("pascal", "go"), wanted)
    return wrong


def files_of_editors_change_nothing() -> List[str]:
    with small_tree() as tree:
        before = tree.ran("tools/sources_sum", "pascal")
        editors_leave(tree)
        wrong = otherwise("the sum", tree.ran("tools/sources_sum", "pascal"), before)
        return wrong + otherwise("a start", tree.ran("pascal", "go"), RUNS)


def the_program_is_told_its_sources() -> List[str]:
    """By its environment; what was there before is not passed on."""
    with small_tree() as tree:
        sources = tree.ran("tools/sources_sum", "pascal").split("\n")[0]
        said = tree.ran("pascal", "go", FONKJULD_SOURCES="others")
        return otherwise("a start", said, f"released go {sources}\nstatus 0\n")


def a_start_by_a_link_from_elsewhere() -> List[str]:
    with small_tree() as tree:
        os.symlink("../a tree/pascal", f"{tree.path}/pascal")
        links = [tree.ran("../path/pascal", "go"), tree.ran("crates/../pascal", "go")]
        return [fault for link in links for fault in otherwise("a start", link, RUNS)]


def a_start_that_can_remember_nothing() -> List[str]:
    """If the cache folder is not a folder, and if files can't have a byte."""
    with small_tree() as tree:
        write(f"{tree.home}/.cache/fonkjuld", "no folder\n")
        wrong = otherwise("no folder", tree.ran("pascal", "go"), RUNS)
        wrong += otherwise("no home", tree.ran("pascal", "go", HOME=None), RUNS)
        os.remove(f"{tree.home}/.cache/fonkjuld")
        write(f"{tree.tree}/limited", '#!/bin/bash\nulimit -f 0\nexec "${0%/*}/pascal" "$@"\n', 0o755)
        return wrong + otherwise("no bytes", tree.ran("limited", "go"), RUNS)


# (it replaces the kit: it notes its call, and builds a program)
STAND_IN = """#!/bin/sh
echo "$1" >>"$HOME/calls"
[ "$1" = run ] || exit 0
printf '#!/bin/sh\\necho "built $*"\\n' >out/pascal
chmod +x out/pascal
"""


def the_trees_own_program_is_built() -> List[str]:
    """Once, of each crate in turn, if the sources are not those of the released program, or if that is asked for."""
    wrong = []
    proves = r"pascal: proving low \(1 of 2\)\npascal: proving pascal \(2 of 2\)\nbuilt go\nstatus 0\n"
    for change, env in ((edited, {}), (lambda tree: None, {"PASCAL_OWN": "1"})):
        with small_tree() as tree:
            change(tree)
            write(f"{tree.path}/rt", STAND_IN, 0o755)
            for tool in ("flock", "wc"):
                os.symlink(shutil.which(tool) or f"/bin/{tool}", f"{tree.path}/{tool}")
            wrong += otherwise("first", tree.ran("pascal", "go", **env), proves)
            wrong += otherwise("second", tree.ran("pascal", "go", **env), "built go\nstatus 0\n")
            with open(f"{tree.home}/calls", encoding="utf-8") as file:
                wrong += otherwise("calls", file.read(), "lib\nrun\n")
    return wrong


def a_missing_tool_is_named() -> List[str]:
    """One line and status 1. Where the released program is the tree's, only bash and the coreutils are needed."""
    missing = "%s: the command %s is not on the path\nstatus 1\n"
    with small_tree() as tree:
        wrong = otherwise("all tools", tree.ran("pascal", "go"), RUNS)
        wrong += otherwise("no python3", tree.ran("test"), missing % ("test", "python3"))
        edited(tree)
        wrong += otherwise("no kit", tree.ran("pascal", "go"), IS_OF_OTHER_SOURCES)
        write(f"{tree.path}/rt", "#!/bin/sh\n", 0o755)
        wrong += otherwise("no flock", tree.ran("pascal", "go"), missing % ("pascal", "flock"))
        os.remove(f"{tree.path}/sha256sum")
        wrong += otherwise("no sha256sum", tree.ran("pascal", "go"), missing % ("pascal", "sha256sum"))
        wrong += otherwise("no sha256sum", tree.ran("install"), missing % ("install", "sha256sum"))
    return wrong


# ---- the driver of the cases


def a_wrong_program_fails() -> List[str]:
    """Its case is reported with its place, what was expected and what came; the last line counts, and the status is
    1."""
    with tempfile.TemporaryDirectory(prefix="scripts-") as at:
        write(f"{at}/wrong", "#!/bin/sh\necho wrong\n", 0o755)
        said = said_by([f"{TOP}/test", f"{at}/wrong", "cases", "a word where the program of the manual page"])
    told = r".*tests/cases/manual.txt:\d+: a word where .*status: wanted 2, came 0.*\+'wrong\\n'.*"
    return otherwise("a wrong program", said, rf"{told}\n0 passed, 1 failed\nstatus 1\n")


# ---- the installer

INSTALLED = (
    "bin/pascal",
    "share/bash-completion/completions/pascal",
    "share/fish/vendor_completions.d/pascal.fish",
    "share/fonkjuld/installed",
    "share/man/man1/pascal.1",
    "share/zsh/site-functions/_pascal",
)


def files_below(folder: str) -> List[str]:
    """The files in a folder, at any depth."""
    return sorted(os.path.relpath(f"{at}/{name}", folder) for at, _, names in os.walk(folder) for name in names)


def installed_run_and_removed() -> List[str]:
    """Into a prefix that there is not yet, with a space in its name; again over the first; nothing is left."""
    with small_tree() as tree:
        prefix = f"{tree.at}/a prefix"
        told = r"(/\S* ?\S*\n){5}.*/bin is not on the path: .*\nstatus 0\n"
        wrong = otherwise("installed", tree.ran("install", "a prefix"), told)
        wrong += [] if files_below(prefix) == sorted(INSTALLED) else [f"{files_below(prefix)}"]
        said = said_by([f"{prefix}/bin/pascal", "go"], env={"PATH": tree.path})
        wrong += otherwise("run from there", said, "released go nothing\nstatus 0\n")
        said = tree.ran("install", prefix, PATH=f"{tree.path}:{prefix}/bin")
        wrong += otherwise("installed again", said, r".*/bin is on the path: .*\nstatus 0\n")
        wrong += otherwise("removed", tree.ran("install", "--remove", prefix), r"(removed [^\n]*\n){5}status 0\n")
        wrong += [f"left: {files_below(prefix)}"] if os.path.exists(prefix) else []
        said = tree.ran("install", "--remove", prefix)
        return wrong + otherwise("removed again", said, r"install: nothing was installed in .*\nstatus 1\n")


def installed_beside_other_files() -> List[str]:
    """What was there stays: a file of the same name, until it is forced, and others, even after the removal."""
    with small_tree() as tree:
        home = f"{tree.home}/.local"
        write(f"{home}/bin/pascal", "another\n")
        write(f"{home}/bin/other", "another\n")
        wrong = otherwise("not forced", tree.ran("install"), IS_NOT_OURS % "bin/pascal")
        wrong += [] if files_below(home) == ["bin/other", "bin/pascal"] else [f"{files_below(home)}"]
        wrong += otherwise("forced", tree.ran("install", "--force"), WELL)
        is_replaced = sum_of(f"{home}/bin/pascal") == sum_of(f"{tree.tree}/released/pascal")
        wrong += [] if is_replaced else ["it was not replaced"]
        write(f"{home}/share/man/man1/pascal.1", "changed since\n")
        wrong += otherwise("installed over a change", tree.ran("install"), IS_NOT_OURS % "pascal.1")
        told = rf".*install: [^\n]*/pascal.1 was changed since: it is left\n{WELL}"
        wrong += otherwise("removed", tree.ran("install", "--remove"), told)
        left = ["bin/other", "share/man/man1/pascal.1"]
        return wrong + ([] if files_below(home) == left else [f"left: {files_below(home)}"])


def installed_over_a_link() -> List[str]:
    """If forced, the link is replaced, and not what it leads to."""
    with small_tree() as tree:
        write(f"{tree.at}/elsewhere", "another\n")
        os.makedirs(f"{tree.home}/.local/bin")
        os.symlink(f"{tree.at}/elsewhere", f"{tree.home}/.local/bin/pascal")
        wrong = otherwise("not forced", tree.ran("install"), IS_NOT_OURS % "bin/pascal")
        wrong += otherwise("forced", tree.ran("install", "--force"), WELL)
        is_whole = os.path.getsize(f"{tree.at}/elsewhere") == len("another\n")
        is_link = os.path.islink(f"{tree.home}/.local/bin/pascal")
        return wrong + ([] if is_whole and not is_link else ["the link was followed"])


def installed_for_a_package() -> List[str]:
    """DESTDIR is put before the prefix, and nothing else is written."""
    with small_tree() as tree:
        package = f"{tree.at}/package"
        wrong = otherwise("installed", tree.ran("install", "/usr", DESTDIR=package), r"(/\S* ?\S*\n){5}status 0\n")
        wrong += [] if files_below(f"{package}/usr") == sorted(INSTALLED) else [f"{files_below(package)}"]
        wrong += otherwise("removed", tree.ran("install", "--remove", "/usr", DESTDIR=package), WELL)
        return wrong + [f"left: {file}" for file in files_below(package)]


def no_program_of_other_sources_is_installed() -> List[str]:
    with small_tree() as tree:
        edited(tree)
        told = "install: the released program is not of the sources in this tree, or not whole\nstatus 1\n"
        wrong = otherwise("installed", tree.ran("install"), told)
        return wrong + ([f"written: {files_below(tree.home)}"] if files_below(tree.home) else [])


def an_empty_prefix_is_an_error() -> List[str]:
    """It is not taken for the prefix that there is without one."""
    told, wrong = r"install: the PREFIX is empty: [^\n]*\nstatus 1\n", []
    with small_tree() as tree:
        for words in ([""], ["--force", ""], ["--remove", ""], ["", "a prefix"], ["a prefix", ""]):
            wrong += otherwise(f"install {words}", tree.ran("install", *words), told)
        return wrong + [f"written: {file}" for file in files_below(tree.home) + files_below(f"{tree.at}/a prefix")]


NOTES = "share/fonkjuld/installed"
SUM_OF_VICTIM = hashlib.sha256(b"another\n").hexdigest()
# what is made of the notes, by what they were
DAMAGES: Dict[str, Callable[[bytes], bytes]] = {
    "a file above the prefix": lambda notes: notes + f"{SUM_OF_VICTIM} ../victim\n".encode(),
    "one by a way through it": lambda notes: notes + f"{SUM_OF_VICTIM} bin/../../victim\n".encode(),
    "one by an absolute path": lambda notes: notes + f"{SUM_OF_VICTIM} /%s/victim\n".encode(),
    "one by a link": lambda notes: notes + f"{SUM_OF_VICTIM} way/victim\n".encode(),
    "another file of the prefix": lambda notes: notes + f"{SUM_OF_VICTIM} bin/other\n".encode(),
    "the notes themselves": lambda notes: notes + f"{SUM_OF_VICTIM} {NOTES}\n".encode(),
    "a folder above the prefix": lambda notes: b"folder ../empty\n" + notes,
    "a folder of its parent": lambda notes: b"folder ..\n" + notes,
    "another folder of the prefix": lambda notes: b"folder bare\n" + notes,
    "all paths": lambda notes: notes + f"{SUM_OF_VICTIM} @\n".encode(),
    "an empty line": lambda notes: b"\n" + notes,
    "an empty line at the end": lambda notes: notes + b"\n",
    "a line without a path": lambda notes: notes + f"{SUM_OF_VICTIM}\n".encode(),
    "a sum cut short": lambda notes: notes + f"{SUM_OF_VICTIM[1:]} bin/pascal\n".encode(),
    "line ends of two bytes": lambda notes: notes.replace(b"\n", b"\r\n"),
    "a zero byte": lambda notes: notes + b"\0",
    "a zero byte in a line": lambda notes: notes.replace(b"bin/", b"bin\0/"),
    "a cut line": lambda notes: notes[:-3],
    "a lost line end": lambda notes: notes[:-1],
    "nothing": lambda notes: b"",
}


def contents_below(folder: str) -> Dict[str, Optional[bytes]]:
    """The files in a folder with their bytes, and the empty folders."""
    found: Dict[str, Optional[bytes]] = {}
    for at, folders, names in os.walk(folder):
        paths = [f"{at}/{name}" for name in names if not os.path.islink(f"{at}/{name}")]
        found.update({os.path.relpath(path, folder): content_of(path) for path in paths})
        found.update({os.path.relpath(at, folder): None} if not folders and not names else {})
    return found


def content_of(path: str) -> bytes:
    """The bytes of a file."""
    with open(path, "rb") as file:
        return file.read()


def put_bytes(path: str, content: bytes) -> None:
    """Writes a file."""
    with open(path, "wb") as file:
        file.write(content)


@contextlib.contextmanager
def installed_tree() -> Iterator[Tree]:
    """A small tree that is installed into PLACE/prefix, with files beside what was installed and beside the prefix."""
    with small_tree() as tree:
        os.makedirs(f"{tree.place}/empty")
        os.makedirs(f"{tree.place}/prefix/bare")
        for path in ("victim", "prefix/bin/other"):
            write(f"{tree.place}/{path}", "another\n")
        os.symlink("..", f"{tree.place}/prefix/way")
        tree.ran("install", "place/prefix")
        os.rename(tree.place, f"{tree.at}/installed")
        yield tree


def place_anew(tree: Tree) -> str:
    """The path of the notes, where all is again as it was installed."""
    shutil.rmtree(tree.place, ignore_errors=True)
    shutil.copytree(f"{tree.at}/installed", tree.place, symlinks=True)
    return f"{tree.place}/prefix/{NOTES}"


def nothing_changes(tree: Tree, what: str, told: str) -> List[str]:
    """What is told of a removal and of an installation is this, and all files are as they were."""
    before, wrong = contents_below(tree.place), []
    for words in (["--remove"], []):
        wrong += otherwise(f"{what}, {words}", tree.ran("install", *words, "place/prefix"), told)
    return wrong + ([] if contents_below(tree.place) == before else [f"{what}: files were changed"])


TELLS_NOTES = rf"install: [^\n]*/{NOTES} is [^\n]*: nothing was changed [^\n]*\nstatus 1\n"


def damaged_notes_are_told() -> List[str]:
    """Then nothing is removed or written."""
    wrong = []
    with installed_tree() as tree:
        for name, damage in DAMAGES.items():
            notes = place_anew(tree)
            put_bytes(notes, damage(content_of(notes)).replace(b"%s", tree.place.encode()))
            wrong += nothing_changes(tree, name, TELLS_NOTES)
        for name, target in (("a link", f"{tree.place}/notes"), ("a link to nothing", "nothing"), ("a folder", None)):
            notes = place_anew(tree)
            os.rename(notes, f"{tree.place}/notes")
            os.symlink(target, notes) if target else os.mkdir(notes)
            wrong += nothing_changes(tree, name, TELLS_NOTES)
    return wrong


def damaged_notes_are_made_anew() -> List[str]:
    """If that is forced; what they told then stays, and what they tell is removed by them."""
    with installed_tree() as tree:
        notes = place_anew(tree)
        put_bytes(notes, DAMAGES["a file above the prefix"](content_of(notes)))
        wrong = otherwise("forced", tree.ran("install", "--force", "place/prefix"), WELL)
        wrong += otherwise("removed", tree.ran("install", "--remove", "place/prefix"), WELL)
        left = [path for path, text in contents_below(tree.place).items() if text is not None]
        return wrong + ([] if sorted(left) == ["prefix/bin/other", "victim"] else [f"left: {left}"])


def a_link_out_of_the_prefix_is_told() -> List[str]:
    """In the place of a folder of what was installed; a link within the prefix is followed."""
    told, wrong = r"install: [^\n]* is outside of [^\n]*/prefix, by a link: nothing was changed [^\n]*\nstatus 1\n", []
    with installed_tree() as tree:
        for folder in ("bin", "share", "share/man", "share/fonkjuld"):
            place_anew(tree)
            os.rename(f"{tree.place}/prefix/{folder}", f"{tree.place}/elsewhere")
            os.symlink(f"{tree.place}/elsewhere", f"{tree.place}/prefix/{folder}")
            wrong += nothing_changes(tree, folder, told)
        place_anew(tree)
        os.rename(f"{tree.place}/prefix/bin", f"{tree.place}/prefix/programs")
        os.symlink("programs", f"{tree.place}/prefix/bin")
        wrong += otherwise("within", tree.ran("install", "place/prefix"), WELL)
        wrong += otherwise("within, removed", tree.ran("install", "--remove", "place/prefix"), WELL)
        is_removed = os.listdir(f"{tree.place}/prefix/programs") == ["other"]
        return wrong + ([] if is_removed else ["within: not removed"])


def what_the_notes_leave_out_stays() -> List[str]:
    """A file that is not noted any more is left, and named."""
    with installed_tree() as tree:
        notes = place_anew(tree)
        kept = [line for line in content_of(notes).splitlines(True) if not line.endswith(b" bin/pascal\n")]
        put_bytes(notes, b"".join(kept))
        told = rf".*install: [^\n]*/bin/pascal is not noted as installed: it is left\n{WELL}"
        wrong = otherwise("removed", tree.ran("install", "--remove", "place/prefix"), told)
        return wrong + ([] if os.path.exists(f"{tree.place}/prefix/bin/pascal") else ["it was removed"])


CONDITIONS = (
    changes_are_seen_by_a_start_that_remembers,
    changes_are_seen,
    files_of_editors_change_nothing,
    the_program_is_told_its_sources,
    a_start_by_a_link_from_elsewhere,
    a_start_that_can_remember_nothing,
    the_trees_own_program_is_built,
    a_missing_tool_is_named,
    a_wrong_program_fails,
    installed_run_and_removed,
    installed_beside_other_files,
    installed_over_a_link,
    installed_for_a_package,
    no_program_of_other_sources_is_installed,
    an_empty_prefix_is_an_error,
    damaged_notes_are_told,
    damaged_notes_are_made_anew,
    a_link_out_of_the_prefix_is_told,
    what_the_notes_leave_out_stays,
)

"""Files that `pascal compile` writes: where others write to the same folder, and where the folder allows no new file.

A second process puts links in the place of each new file while many images are written. The rights and the owner of the
file to which these lead must stay, whatever becomes of the images. tests/README.md describes this.
"""

from __future__ import annotations

import contextlib
import ctypes
import multiprocessing
import os
import subprocess
import tempfile
import time
from typing import Callable, Iterator, List, Optional, Tuple

import runs
from explained import Trial

PLACE = "tests/driver/written.py"
TEXT = "program p; begin end.\n"
# what new files are called, until they are moved to their places
NEW = ".pascal-"
SECRET, OLDER = "a secret\n", "an older image\n"
# of the file elsewhere, and of the images that are replaced
SECRET_RIGHTS, OLDER_RIGHTS = 0o600, 0o646
OTHER_USER = 12345
RACES, SECONDS_OF_RACES = 1000, 20
# of Linux: to take an ability from this process and all that it starts, and the two that pass over permissions
PR_CAPBSET_DROP, PASSES_OVER = 24, (1, 2)


def put(path: str, text: str, rights: int) -> None:
    """Writes a file anew, with these rights."""
    with contextlib.suppress(FileNotFoundError):
        os.remove(path)
    with open(path, "w", encoding="utf-8") as file:
        file.write(text)
    os.chmod(path, rights)


def text_at(path: str) -> str:
    """The text of a file."""
    with open(path, encoding="utf-8", errors="replace") as file:
        return file.read()


def state_of(path: str) -> Tuple[int, int, int, str]:
    """The rights of a file, its owner, its group and its text."""
    found = os.lstat(path)
    return found.st_mode, found.st_uid, found.st_gid, text_at(path)


@contextlib.contextmanager
def laid() -> Iterator[str]:
    """A folder with a text, and a folder `images` in which others may write."""
    with tempfile.TemporaryDirectory(prefix="written-") as folder:
        put(f"{folder}/program.pas", TEXT, 0o644)
        os.mkdir(f"{folder}/images")
        os.chmod(f"{folder}/images", 0o777)
        yield folder


def compiled(program: str, folder: str, *words: str, prepare: Optional[Callable[[], object]] = None) -> Tuple[int, str]:
    """The status of a compilation of the text to `images/out.img`, and what is reported."""
    given = [program, "compile", *words, "program.pas", "images/out.img"]
    how = {"env": runs.environment(), "stdin": subprocess.DEVNULL, "timeout": runs.SECONDS, "preexec_fn": prepare}
    ran = subprocess.run(given, cwd=folder, capture_output=True, text=True, **how)
    return ran.returncode, ran.stderr


# ---- somebody else in the folder


def replace_new_files(folder: str) -> None:
    """Moves a link that leads elsewhere to the place of each new file, again and again."""
    images = f"{folder}/images"
    spares = [f"{folder}/spares/{at}" for at in range(RACES)]
    while spares:
        for name in os.listdir(images):
            if name.startswith(NEW) and spares and not os.path.islink(f"{images}/{name}"):
                with contextlib.suppress(OSError):
                    os.rename(spares[-1], f"{images}/{name}")
                    spares.pop()


def put_older(folder: str) -> None:
    """Puts an older image there, of another user if that can be, and removes what is left of others."""
    for name in os.listdir(f"{folder}/images"):
        with contextlib.suppress(OSError):
            os.remove(f"{folder}/images/{name}")
    put(f"{folder}/images/out.img", OLDER, OLDER_RIGHTS)
    if os.geteuid() == 0:
        os.chown(f"{folder}/images/out.img", OTHER_USER, OTHER_USER)


def raced(program: str) -> List[str]:
    """Compiles while another process replaces new files by links; returns what became of the file elsewhere."""
    with laid() as folder:
        put(f"{folder}/secret", SECRET, SECRET_RIGHTS)
        os.mkdir(f"{folder}/spares")
        for at in range(RACES):
            os.symlink(f"{folder}/secret", f"{folder}/spares/{at}")
        before = state_of(f"{folder}/secret")
        other = multiprocessing.get_context("fork").Process(target=replace_new_files, args=(folder,), daemon=True)
        other.start()
        try:
            until = time.monotonic() + SECONDS_OF_RACES
            for _ in range(RACES):
                if time.monotonic() > until:
                    break
                put_older(folder)
                compiled(program, folder)
                if state_of(f"{folder}/secret") != before:
                    return [f"a file elsewhere was {before}, and became {state_of(f'{folder}/secret')}"]
        finally:
            other.kill()
            other.join()
    return []


# ---- the rights of new files


def rights_kept(program: str) -> List[str]:
    """A new image has the owner and the permissions of the older one, and those of a new file where there is none."""
    wrong: List[str] = []
    for older, wanted in ((0o600, 0o600), (0o646, 0o646), (0o755, 0o755), (0o6755, 0o755), (0o1666, 0o666)):
        with laid() as folder:
            image = f"{folder}/images/out.img"
            put_older(folder)
            os.chmod(image, older)
            owner = os.stat(image).st_uid
            told, found = compiled(program, folder), os.stat(image)
            if (told, found.st_mode & 0o7777, found.st_uid) != ((0, ""), wanted, owner):
                wrong.append(f"older {older:o}: {told}, {found.st_mode:o} of {found.st_uid}, wanted {wanted:o}")
    with laid() as folder:
        told = compiled(program, folder, prepare=lambda: os.umask(0o027))
        rights = os.stat(f"{folder}/images/out.img").st_mode & 0o7777
        if (told, rights) != ((0, ""), 0o640):
            wrong.append(f"a new image: {told}, {rights:o}, wanted 640")
    return wrong


# ---- a folder that allows no new file


def obey_permissions() -> None:
    """Within a new process: permissions count for it, even if its user is root."""
    for ability in PASSES_OVER if os.geteuid() == 0 else ():
        ctypes.CDLL(None).prctl(PR_CAPBSET_DROP, ability, 0, 0, 0)


def is_closed(folder: str) -> bool:
    """Whether such a process can make no file there. (A root with few rights can't give up any.)"""
    words = ["sh", "-c", ": > images/new"]
    return subprocess.run(words, cwd=folder, preexec_fn=obey_permissions, capture_output=True).returncode != 0


def closed(program: str) -> List[str]:
    """An image that may be written in a folder that may not: nothing is written to it in place."""
    wanted = (1, "cannot write images/out.img: its folder allows no new file, and no file is written in place\n")
    with laid() as folder:
        put(f"{folder}/images/out.img", OLDER, 0o666)
        os.chmod(f"{folder}/images", 0o555)
        try:
            if not is_closed(folder):
                return []
            told = compiled(program, folder, prepare=obey_permissions)
            stays = text_at(f"{folder}/images/out.img") == OLDER
        finally:
            os.chmod(f"{folder}/images", 0o755)
    return [] if stays and told == wanted else [f"{told}, the older image stays: {stays}, wanted {wanted}"]


# ---- what earlier runs left


def beside_others(program: str) -> List[str]:
    """New files that earlier runs left, under the names that were once tried one after the other, hinder nothing."""
    with laid() as folder:
        for number in range(100):
            put(f"{folder}/images/{NEW}{number}.tmp", "", 0o644)
        told = compiled(program, folder)
        left = len(os.listdir(f"{folder}/images"))
    return [] if (told, left) == ((0, ""), 101) else [f"{told}, {left} files, wanted 101"]


def trials(program: str) -> Iterator[Trial]:
    """What is tried of files that are written."""
    yield Trial("new files are replaced by links", PLACE, lambda: raced(program))
    yield Trial("the rights of a new image", PLACE, lambda: rights_kept(program))
    yield Trial("a folder that allows no new file", PLACE, lambda: closed(program))
    yield Trial("a hundred new files that were left", PLACE, lambda: beside_others(program))

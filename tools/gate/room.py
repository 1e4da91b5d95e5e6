"""The room: a copy of the tree in which a run works, so that the tree's own folders `out/` are neither read nor
changed."""

import contextlib
import fcntl
import os
import shutil
import subprocess
import tempfile
import time
from typing import Iterator, List, Optional

# seconds: a room that was just made may not be held yet
YOUNG = 2


def files_of(top: str) -> List[str]:
    """The files of the tree: those that git tracks or would add, or all of them if it is not a checkout."""
    ran = subprocess.run(
        ["git", "ls-files", "-z", "--cached", "--others", "--exclude-standard"], cwd=top, capture_output=True, text=True
    )
    if ran.returncode == 0 and os.path.exists(f"{top}/.git"):
        return [path for path in dict.fromkeys(ran.stdout.split("\0")) if path and os.path.lexists(f"{top}/{path}")]
    found = []
    for at, folders, files in os.walk(top):
        folders[:] = [folder for folder in folders if folder not in ("out", ".git", "__pycache__")]
        found += [os.path.relpath(f"{at}/{file}", top) for file in files]
    return found


@contextlib.contextmanager
def opened(top: str, at: Optional[str]) -> Iterator[str]:
    """A room below a folder, or where temporary files go if that is None. It is removed at the end, and so are those of
    runs that were killed."""
    if at:
        os.makedirs(f"{at}/rooms", exist_ok=True)
        clear_left(f"{at}/rooms")
    room = tempfile.mkdtemp(prefix="gate-", dir=at and f"{at}/rooms")
    with open(f"{room}/lock", "w", encoding="utf-8") as held:
        fcntl.flock(held, fcntl.LOCK_EX)
        try:
            lay(top, f"{room}/tree")
            yield room
        finally:
            shutil.rmtree(room, ignore_errors=True)


def clear_left(rooms: str) -> None:
    """Removes the rooms whose runs no longer hold them."""
    for name in os.listdir(rooms):
        try:
            with open(f"{rooms}/{name}/lock", encoding="utf-8") as held:
                fcntl.flock(held, fcntl.LOCK_EX | fcntl.LOCK_NB)
                if time.time() - os.fstat(held.fileno()).st_mtime > YOUNG:
                    shutil.rmtree(f"{rooms}/{name}", ignore_errors=True)
        except OSError:
            continue


def lay(top: str, to: str) -> None:
    """Copies the files of the tree."""
    for file in files_of(top):
        os.makedirs(os.path.dirname(f"{to}/{file}"), exist_ok=True)
        shutil.copy2(f"{top}/{file}", f"{to}/{file}", follow_symlinks=False)

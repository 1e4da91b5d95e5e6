"""The store: what this machine has proved, kept by content.

An entry is a folder whose name is its key, the sum of everything that decides it. It contains `entry.json`, with what
is to be reported of it and the sums of its files, and `files/`. It is made whole under another name and then renamed,
so no reader sees a part of it; one whose sums do not fit is dropped.
"""

import json
import os
import shutil
import tempfile
import time
from typing import Any, Dict, List, Optional

import kit

DAYS = 30


def place() -> str:
    """The folder of the store: FONKJULD_STORE, or a folder of the user's cache."""
    cache = os.environ.get("XDG_CACHE_HOME") or os.path.expanduser("~/.cache")
    return os.path.abspath(os.environ.get("FONKJULD_STORE") or f"{cache}/fonkjuld")


class Store:
    """The store at a place, or one that keeps nothing, if the place is None."""

    def __init__(self, at: Optional[str], reads: bool = True) -> None:
        self.at, self.reads = at, reads

    @staticmethod
    def open(at: str, reads: bool = True) -> "Store":
        """The store at a place, or one that keeps nothing if its folder can't be written."""
        try:
            os.makedirs(f"{at}/entries", exist_ok=True)
            os.rmdir(tempfile.mkdtemp(dir=f"{at}/entries"))
        except OSError as error:
            print(f"gate: nothing is kept: {at} cannot be written ({error.strerror})", flush=True)
            return Store(None)
        return Store(at, reads)

    def folder(self, key: str) -> str:
        """The folder of an entry."""
        return f"{self.at}/entries/{key}"

    def facts(self, key: str) -> Optional[Dict[str, Any]]:
        """What an entry says, or None if there is none that can be used."""
        if not (self.at and self.reads):
            return None
        try:
            with open(f"{self.folder(key)}/entry.json", encoding="utf-8") as file:
                entry = json.load(file)
            if entry["sum"] != kit.sum_of(entry["facts"], entry["files"]) or entry["key"] != key:
                raise ValueError
            if any(
                os.path.getsize(f"{self.folder(key)}/files/{file}") != size
                for file, (_, size) in entry["files"].items()
            ):
                raise ValueError
            os.utime(self.folder(key))
            return entry
        except FileNotFoundError:
            if os.path.isdir(self.folder(key)):
                self.drop(key)
        except (OSError, ValueError, KeyError, TypeError, AttributeError):
            self.drop(key)
        return None

    def drop(self, key: str) -> None:
        """Drops an entry that is damaged."""
        print(f"gate: an entry of the store was damaged, and is dropped: {key[:16]}", flush=True)
        away = tempfile.mkdtemp(prefix="dropped-", dir=f"{self.at}/entries")
        try:
            os.rename(self.folder(key), f"{away}/{key}")
        except OSError:
            pass
        shutil.rmtree(away, ignore_errors=True)

    def take(self, key: str, to: str) -> Optional[Dict[str, Any]]:
        """Lays an entry's files below a folder by links, after their sums were compared, and returns what it says, or
        None."""
        entry = self.facts(key)
        if entry is None:
            return None
        files = f"{self.folder(key)}/files"
        try:
            if any(kit.file_sum(f"{files}/{file}") != known for file, (known, _) in entry["files"].items()):
                self.drop(key)
                return None
            for file in entry["files"]:
                os.makedirs(os.path.dirname(f"{to}/{file}"), exist_ok=True)
                link(f"{files}/{file}", f"{to}/{file}")
        except OSError:
            return None
        return entry["facts"]

    def put(self, key: str, facts: Dict[str, Any], folder: Optional[str], files: List[str]) -> None:
        """Keeps files of a folder under a key. If that fails, for example because the disk is full, nothing is kept."""
        if not self.at:
            return
        made = None
        try:
            made = tempfile.mkdtemp(prefix="making-", dir=f"{self.at}/entries")
            sums = {}
            for file in files:
                os.makedirs(os.path.dirname(f"{made}/files/{file}"), exist_ok=True)
                link(f"{folder}/{file}", f"{made}/files/{file}")
                sums[file] = [kit.file_sum(f"{folder}/{file}"), os.path.getsize(f"{folder}/{file}")]
            facts = json.loads(json.dumps(facts))
            with open(f"{made}/entry.json", "w", encoding="utf-8") as file:
                json.dump({"key": key, "facts": facts, "files": sums, "sum": kit.sum_of(facts, sums)}, file)
                file.flush()
                os.fsync(file.fileno())
            if not self.reads:
                shutil.rmtree(self.folder(key), ignore_errors=True)
            os.rename(made, self.folder(key))
        except OSError:
            if made:
                shutil.rmtree(made, ignore_errors=True)

    def tidy(self) -> None:
        """Removes entries that no run has used for a while, and what killed runs left half made."""
        if not self.at:
            return
        for entry in os.scandir(f"{self.at}/entries"):
            days = DAYS if len(entry.name) == 64 else 1
            if entry.stat(follow_symlinks=False).st_mtime < time.time() - days * 86400:
                shutil.rmtree(entry.path, ignore_errors=True)


def link(path: str, to: str) -> None:
    """A second name for a file, or a copy if there can't be one."""
    try:
        os.link(path, to)
    except FileExistsError:
        os.remove(to)
        link(path, to)
    except OSError:
        shutil.copy2(path, to)

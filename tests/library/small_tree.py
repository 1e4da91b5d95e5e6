"""A small tree of two crates with this repository's gate, launcher and tools, and runs of these in it."""

from __future__ import annotations

import contextlib
import os
import re
import shutil
import signal
import subprocess
import tempfile
from typing import Dict, Optional, Sequence

TOP = os.path.dirname(os.path.dirname(os.path.dirname(os.path.realpath(__file__))))
# (a run that makes each proof takes a minute of a processor, and much longer if other programs run)
SECONDS = 3600
LAUNCH_SECONDS = 60
FILES = {
    "HANDLES": "Handles allowed: none.\n",
    "crates.txt": "low:\npascal: low\n",
    "crates/low/src/lib.rt": """//! A library with one function.
#![tactic(auto)]

ghost use Rattle.std.specs.Prelude.{◌≡◌};

/// The same number.
pub fn same(x: usize) -> usize
    ensures { result ≡ x }
{
    x
}
""",
    "crates/low/must-fail/another.edit": "file: src/lib.rt\nold:     x\nnew:     0\n",
    "crates/pascal/src/main.rt": """//! Writes a line.
#![tactic(auto)]

use std::io;

fn main(rt: HostRuntime) -> io::Result<()> {
    println!(rt; "hello")
}
""",
    "crates/pascal/stdout": "hello\n",
    "examples/hello.pas": "program p(output); begin writeln('hello') end.\n",
}
# what replaces the cases, the growths and the pages in the small tree, which are not tested here
SCRIPTS = {script: '#!/bin/sh\necho "1 passed, 0 failed"\n' for script in ("test", "tests/growths", "tools/pages")}
# the replacement for rt: it notes its call, takes its time, and builds a program of its own
STAND_IN = """#!/bin/sh
echo "$1" >>"$CALLS"
sleep "${TAKES:-0}"
[ "$1" = run ] || exit 0
printf '#!/bin/sh\\necho built\\n' >out/pascal
chmod +x out/pascal
"""


def write(path: str, text: str, mode: int = 0o644) -> None:
    """Writes a file, and makes its folder if necessary."""
    os.makedirs(os.path.dirname(path), exist_ok=True)
    with open(path, "w", encoding="utf-8") as file:
        file.write(text)
    os.chmod(path, mode)


def edit(path: str, old: str, new: str) -> None:
    """Replaces a text in a file."""
    with open(path, encoding="utf-8") as file:
        text = file.read()
    write(path, text.replace(old, new))


def cut(path: str) -> None:
    """Leaves half of a file. What has other names keeps its bytes there."""
    with open(path, "rb") as file:
        content = file.read()
    mode = os.stat(path).st_mode
    os.remove(path)
    with open(path, "wb") as file:
        file.write(content[: len(content) // 2])
    os.chmod(path, mode)


def ended(process: subprocess.Popen) -> None:
    """Ends a run and all that it started, at once."""
    with contextlib.suppress(ProcessLookupError):
        os.killpg(process.pid, signal.SIGKILL)
    process.wait()


def wrong(text: str, wanted: Sequence[str], unwanted: Sequence[str] = ()) -> Optional[str]:
    """What a run did not say, or said and must not, if anything."""
    lacking = [form for form in wanted if not re.search(form, text)]
    found = [form for form in unwanted if re.search(form, text)]
    if lacking or found:
        tail = text[-1500:].replace("\n", "\n    ")
        return f"it did not say {lacking}, and said {found}:\n    {tail}"
    return None


class Small:
    """The small tree, with a store that each condition has a copy of."""

    def __init__(self, folder: str) -> None:
        self.folder, self.tree, self.first = folder, f"{folder}/tree", f"{folder}/first"
        for path, text in FILES.items():
            write(f"{self.tree}/{path}", text)
        for path, text in SCRIPTS.items():
            write(f"{self.tree}/{path}", text, 0o755)
        for launcher in ("gate", "pascal"):
            shutil.copy2(f"{TOP}/{launcher}", f"{self.tree}/{launcher}")
        for tool in ("gate", "sources_sum", "stands_on"):
            path = f"{TOP}/tools/{tool}"
            (shutil.copytree if os.path.isdir(path) else shutil.copy2)(path, f"{self.tree}/tools/{tool}")

    @contextlib.contextmanager
    def copy(self, store: bool = True) -> str:
        """A copy of the tree, and of the store that the first run left."""
        with tempfile.TemporaryDirectory(prefix="copy-", dir=self.folder) as at:
            shutil.copytree(self.tree, f"{at}/tree")
            if store:
                shutil.copytree(self.first, f"{at}/store")
            yield at

    def begun(
        self, at: str, words: Sequence[str] = (), env: Optional[Dict[str, str]] = None, before: Sequence[str] = ()
    ) -> subprocess.Popen:
        """Begins a gate of the tree in a folder, in a group of its own."""
        given = {**os.environ, "FONKJULD_STORE": f"{at}/store", "TMPDIR": at, **(env or {})}
        given = {name: value for name, value in given.items() if value is not None}
        words = [*before, f"{at}/tree/gate", *words]
        return subprocess.Popen(
            words,
            env=given,
            stdout=subprocess.PIPE,
            stderr=subprocess.STDOUT,
            text=True,
            errors="replace",
            start_new_session=True,
        )

    def gate(
        self, at: str, words: Sequence[str] = (), env: Optional[Dict[str, str]] = None, before: Sequence[str] = ()
    ) -> str:
        """Runs a gate to its end, and gives what it said and its status."""
        process = self.begun(at, words, env, before)
        try:
            said, _ = process.communicate(timeout=SECONDS)
        finally:
            ended(process)
        return f"{said}status {process.returncode}\n"

    def gate_until(self, at: str, pattern: str, env: Optional[Dict[str, str]] = None) -> str:
        """Runs a gate until it says something, and ends it there and then. Gives what it said."""
        process, said = self.begun(at, env=env), ""
        for line in process.stdout:
            said += line
            if re.search(pattern, line):
                break
        ended(process)
        return said

    def launch(
        self,
        at: str,
        words: Sequence[str] = ("go",),
        env: Optional[Dict[str, str]] = None,
        kit_at: Optional[str] = None,
    ) -> str:
        """Runs the launcher with the replacement for rt, or without any; returns what it said, its status, and the
        calls of rt."""
        path = f"{kit_at}:/usr/bin:/bin" if kit_at else "/usr/bin:/bin"
        given = {"PATH": path, "HOME": "/dev/null/home", "CALLS": f"{at}/calls", **(env or {})}
        ran = subprocess.run(
            [f"{at}/tree/pascal", *words],
            env=given,
            capture_output=True,
            text=True,
            errors="replace",
            timeout=LAUNCH_SECONDS,
        )
        return f"{ran.stdout}{ran.stderr}status {ran.returncode}\n{calls(at)}"


def calls(at: str) -> str:
    """The calls of the replacement for rt so far, as a line."""
    try:
        with open(f"{at}/calls", encoding="utf-8") as file:
            return f"calls {file.read().split()}\n"
    except OSError:
        return "no calls\n"


def stand_in(at: str) -> str:
    """The folder of the replacement for rt, which is written there."""
    write(f"{at}/kit/rt", STAND_IN, 0o755)
    return f"{at}/kit"

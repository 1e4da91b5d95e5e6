"""Runs a case in a folder of its own, and reports how the result differs from what is expected."""

from __future__ import annotations

import contextlib
import difflib
import io
import os
import pty
import re
import resource
import select
import shlex
import signal
import socket
import subprocess
import tempfile
import termios
import time
from dataclasses import dataclass
from typing import Dict, List, Match, Optional, Tuple

from cases import Case
from images import Image

SECONDS = 60
SECONDS_TO_ANSWER = 60  # of a conversation, wide since other work may hold the machine
SECONDS_TO_BE_SEEN = 5  # what is said, where the program goes on without end
NOTHING = "nothing"
# what the driver itself makes in the folder of a case
IMAGE_OF_CASE, STANDARD_OUTPUT = "image of the case", "standard output"
END_OF_INPUT = b"\x04"  # typed at a terminal
MOST_LINES = 12  # of a difference that is told
MOST_SIGNS = 160  # of a line of it


@dataclass
class Ran:
    """How a run ended, and what it wrote."""

    status: int
    output: bytes
    error: bytes
    # of its input
    left: Optional[bytes] = None


def environment() -> Dict[str, str]:
    """What the program finds in its environment: what there is, without what a launcher may have set."""
    return {name: value for name, value in os.environ.items() if name != "FONKJULD_SOURCES"}


def finished(words: List[str], folder: str) -> subprocess.CompletedProcess:
    """A run of the program on no input."""
    how = {"env": environment(), "stdin": subprocess.DEVNULL, "timeout": SECONDS}
    return subprocess.run(words, cwd=folder, capture_output=True, **how)


# ---- the words of a case


def image_of(program: str, source: str, folder: str) -> Tuple[Optional[Image], bytes]:
    """The image that the program makes of a text, or what it says if it makes none."""
    image = os.path.join(folder, IMAGE_OF_CASE)
    ran = finished([program, "compile", source, image], folder)
    if ran.returncode:
        return None, ran.stderr
    with open(image, "rb") as file:
        return Image(file.read()), b""


def parted(words: str) -> List[bytes]:
    """The words of a command, as a shell would part them; `\\x` and two hexadecimal digits there are a byte."""

    def byte(found: Match[bytes]) -> bytes:
        return bytes.fromhex(found[1].decode())

    return [re.sub(rb"\\x([0-9A-F]{2})", byte, os.fsencode(word)) for word in shlex.split(words)]


def words_of(case: Case, program: str, folder: str) -> Tuple[Optional[List[bytes]], bytes]:
    """The words of a case; or what the program says if there is no image. Each sum in braces is taken over the tables
    of the image of its program."""
    if "{" not in case.words:
        return parted(case.words), b""
    image, said = image_of(program, "program.pas", folder)
    if not image:
        return None, said
    return parted(re.sub(r"\{(.*?)\}", lambda found: str(image.sum(found[1])), case.words)), b""


# ---- conversations


@dataclass
class Talk:
    """A running program, with our ends of its input and its output: of two pipes, or of a terminal."""

    process: subprocess.Popen
    types_to: io.RawIOBase
    hears: io.RawIOBase
    is_terminal: bool

    def types(self, text: bytes) -> None:
        """Gives it a text. At a terminal a text without a line end is sent only if the case says so."""
        if self.is_terminal and text and not text.endswith(b"\n"):
            text += END_OF_INPUT
        with contextlib.suppress(OSError):
            self.types_to.write(text)

    def ends(self) -> None:
        """Ends its input."""
        with contextlib.suppress(OSError):
            if self.is_terminal:
                self.types_to.write(END_OF_INPUT)
            else:
                self.types_to.close()

    def close(self) -> None:
        """Closes the streams."""
        for stream in (self.types_to, self.hears, self.process.stderr):
            stream.close()


def begun(words: List[bytes], folder: str, its: int) -> subprocess.Popen:
    """A run whose standard input and output are these."""
    how = {"stdin": its, "stdout": its, "stderr": subprocess.PIPE, "bufsize": 0}
    return subprocess.Popen(words, cwd=folder, env=environment(), **how)


def begun_on_pipes(words: List[bytes], folder: str) -> Talk:
    """Begins a conversation over pipes."""
    ran = begun(words, folder, subprocess.PIPE)
    return Talk(ran, ran.stdin, ran.stdout, False)


def begun_on_a_terminal(words: List[bytes], folder: str) -> Talk:
    """At a terminal that shows nothing of its own, and knows no sign but the end of the input."""
    ours, its = pty.openpty()
    mode = termios.tcgetattr(its)
    mode[0], mode[1], mode[3] = 0, 0, termios.ICANON
    mode[6] = [END_OF_INPUT if at == termios.VEOF else b"\0" for at in range(len(mode[6]))]
    termios.tcsetattr(its, termios.TCSANOW, mode)
    ran = begun(words, folder, its)
    os.close(its)
    return Talk(ran, os.fdopen(os.dup(ours), "wb", 0), os.fdopen(ours, "rb", 0), True)


def talked(case: Case, talk: Talk) -> Ran:
    """Holds a conversation: what is said is awaited before what the user types is sent; last the input ends.

    `leaves` closes the output.
    """
    said = b""
    try:
        for kind, text in case.talk:
            if kind == "leaves":
                talk.hears.close()
            elif kind == "types":
                talk.types(text)
            else:
                seconds = SECONDS_TO_BE_SEEN if kind == "says soon" else SECONDS_TO_ANSWER
                said += (more := awaited(talk.hears, len(text), seconds))
                if more != text:
                    talk.process.kill()
                    return Ran(talk.process.wait(), said, b"this was not said in time")
        talk.ends()
        more, error = answers(talk)
        return Ran(talk.process.wait(SECONDS_TO_ANSWER), said + more, error)
    finally:
        talk.process.kill()
        talk.process.wait()
        talk.close()


def heard(file: int, most: int) -> bytes:
    """What is there to be read. A terminal whose other side is gone fails: that is its end."""
    try:
        return os.read(file, most)
    except OSError:
        return b""


def awaited(file: io.RawIOBase, length: int, seconds: float) -> bytes:
    """So many bytes, or those that come in time, or before the end."""
    until = time.monotonic() + seconds
    said = b""
    while len(said) < length and select.select([file], [], [], max(0, until - time.monotonic()))[0]:
        more = heard(file.fileno(), length - len(said))
        said += more
        if not more:
            break
    return said


def answers(talk: Talk) -> Tuple[bytes, bytes]:
    """The rest of what a run writes, once its input has ended."""
    until = time.monotonic() + SECONDS_TO_ANSWER
    written = {stream: b"" for stream in (talk.hears, talk.process.stderr) if not stream.closed}
    unread = list(written)
    while unread:
        for file in (ready := select.select(unread, [], [], max(0, until - time.monotonic()))[0]):
            more = heard(file.fileno(), 65536)
            written[file] += more
            if not more:
                unread.remove(file)
        if not ready:
            raise subprocess.TimeoutExpired(talk.process.args, SECONDS_TO_ANSWER)
    return written.get(talk.hears, b""), written[talk.process.stderr]


# ---- runs on a whole input


def failing_behind(text: bytes) -> int:
    """A socket that gives a text, and then a failure: its other end is closed while something in it is unread."""
    reader, writer = socket.socketpair()
    reader.send(b"unread")
    writer.send(text)
    writer.close()
    return reader.detach()


def prepare(case: Case) -> None:
    """Within the new process: what is nothing is closed; files, memory and the processor have their limits."""
    for end, name in ((0, case.reads_from), (1, case.writes_to), (2, case.tells_to)):
        if name == NOTHING:
            os.close(end)
    if case.room is not None:
        signal.signal(signal.SIGXFSZ, signal.SIG_DFL if case.is_stopped_by_signal else signal.SIG_IGN)
    limits = {resource.RLIMIT_FSIZE: case.room, resource.RLIMIT_AS: case.memory, resource.RLIMIT_CPU: case.processor}
    for limit, most in limits.items():
        if most is not None:
            resource.setrlimit(limit, (most, most))


def started(case: Case, words: List[bytes], folder: str) -> Ran:
    """A run on a whole input, with the devices that the case asks for."""
    output = os.path.join(folder, STANDARD_OUTPUT) if case.room is not None else case.writes_to
    how = {"stdout": subprocess.PIPE, "stderr": subprocess.PIPE, "timeout": SECONDS}
    # (a process begins sooner if nothing is to be done within it)
    is_limited = any(limit is not None for limit in (case.room, case.memory, case.processor))
    if is_limited or NOTHING in (case.reads_from, case.writes_to, case.tells_to):
        how["preexec_fn"] = lambda: prepare(case)
    for stream, path in (("stdout", output), ("stderr", case.tells_to)):
        if path and path != NOTHING:
            how[stream] = os.open(os.path.join(folder, path), os.O_WRONLY | os.O_CREAT, 0o644)
    if case.input_fails:
        how["stdin"] = failing_behind(case.input)
    elif case.reads_from is None:
        how["input"] = case.input
    elif case.reads_from != NOTHING:
        how["stdin"] = os.open(os.path.join(folder, case.reads_from), os.O_RDONLY)
    pipes = {name: os.open(os.path.join(folder, name), os.O_RDONLY | os.O_NONBLOCK) for name in case.pipes}
    try:
        ran = subprocess.run(words, cwd=folder, env=environment(), **how)
        left = whole(how["stdin"]) if case.left is not None else None
        for name, pipe in pipes.items():
            keep(os.path.join(folder, name), whole(pipe))
    finally:
        for end in (*(how.get(name, -1) for name in ("stdin", "stdout", "stderr")), *pipes.values()):
            if end >= 0:
                os.close(end)
    written = content_of(folder, STANDARD_OUTPUT) if case.room is not None else ran.stdout
    return Ran(ran.returncode, written or b"", ran.stderr or b"", left)


def whole(file: int) -> bytes:
    """All that is left of an open file, or that a pipe holds."""
    return b"".join(iter(lambda: heard(file, 65536), b""))


def keep(path: str, content: bytes) -> None:
    """Replaces a pipe by a file with what was written to it."""
    os.remove(path)
    with open(path, "wb") as file:
        file.write(content)


# ---- differences from what is expected


def shown(text: object) -> str:
    """A text as it is shown, without the middle of a long one."""
    if not isinstance(text, bytes):
        return repr(text)
    told, half = repr(text)[1:], MOST_SIGNS // 2
    return told if len(text) <= MOST_SIGNS else f"{told[:half]} .. {told[-half:]} ({len(text)} bytes)"


def differing_lines(got: bytes, wanted: bytes) -> List[str]:
    """The first lines in which two texts differ, with those around them. For long texts only what follows the first
    difference is compared."""
    lines = [[shown(line) for line in re.findall(rb"[^\n]*\n|[^\n]+\Z", text)] for text in (wanted, got)]
    if max(map(len, lines)) > 5000:
        at = next((at for at, (line, other) in enumerate(zip(*lines)) if line != other), min(map(len, lines)))
        lines = [line[max(at - 2, 0) : at + MOST_LINES] for line in lines]
    told = [re.sub(r"^@@ -(\d+).*", r"line \1", line) for line in difflib.unified_diff(*lines, lineterm="", n=1)][2:]
    return told[:MOST_LINES] + (["..."] if len(told) > MOST_LINES else [])


def difference(what: str, got: object, wanted: object) -> str:
    """How a result differs from what is expected; for texts of several lines, where they differ."""
    if isinstance(got, bytes) and isinstance(wanted, bytes) and b"\n" in got + wanted:
        return "\n".join([f"{what}: - wanted, + came", *(f"  {line}" for line in differing_lines(got, wanted))])
    return f"{what}: wanted {shown(wanted)}, came {shown(got)}"


def with_lines(got: bytes, wanted: bytes) -> bytes:
    """What came, if it has these lines; otherwise the lines."""
    return got if set(wanted.splitlines()) <= set(got.splitlines()) else wanted


def wanted_output(case: Case, got: bytes, program: str, folder: str) -> Optional[bytes]:
    """What standard output must be: of a text that is repeated, as much as there is of it, and at least one byte."""
    if case.lists:
        image = image_of(program, case.lists, folder)[0]
        return "".join(image.listing()).encode() if image else b"the listing of an image"
    if case.is_as:
        return content_of(folder, case.is_as)
    if case.holds:
        return with_lines(got, case.holds)
    if case.talk:
        return b"".join(text for kind, text in case.talk if kind.startswith("says"))
    if not case.repeats:
        return case.output
    times = len(got) // len(case.repeats) + 1
    return (case.repeats * times)[: max(len(got), 1)]


def differences(case: Case, ran: Ran, program: str, folder: str) -> List[str]:
    """How the result of a case differs from what is expected."""
    wrong = []
    for what, got, wanted in (
        ("status", ran.status, case.status),
        ("standard output", ran.output, wanted_output(case, ran.output, program, folder)),
        ("standard error", ran.error, with_lines(ran.error, case.error_holds) if case.error_holds else case.error),
    ):
        if got != wanted:
            wrong.append(difference(what, got, wanted))
    if case.left is not None and ran.left != case.left:
        wrong.append(difference("input left", ran.left, case.left))
    return wrong + differences_of_files(case, folder)


def content_of(folder: str, name: str) -> Optional[bytes]:
    """The bytes of a file, if there is one."""
    path = os.path.join(folder, name)
    if not os.path.exists(path):
        return None
    with open(path, "rb") as file:
        return file.read()


def differences_of_files(case: Case, folder: str) -> List[str]:
    """How files differ from what is expected."""
    contents = {name: (content_of(folder, name), wanted) for name, wanted in case.makes.items()}
    wrong = [difference(name, got, wanted) for name, (got, wanted) in contents.items() if got != wanted]
    wrong += [f"{name} is no link any more" for name in case.links if not os.path.islink(os.path.join(folder, name))]
    pairs = [(one, other) for one, other in case.same if content_of(folder, one) != content_of(folder, other)]
    wrong += [f"{one} and {other} are not the same" for one, other in pairs]
    there = sorted(set(os.listdir(folder)) - {IMAGE_OF_CASE, STANDARD_OUTPUT})
    if case.there is not None and there != case.there:
        wrong.append(difference("files", " ".join(there), " ".join(case.there)))
    return wrong + [f"{name} was made" for name in case.absent if os.path.exists(os.path.join(folder, name))]


def name_of(written: str) -> bytes:
    """The name of a file: in single quotes it is written as a word of a command."""
    return parted(written)[0] if written.startswith("'") else os.fsencode(written)


def lay(case: Case, folder: str) -> None:
    """Lays the files of a case into its folder, with its links and pipes."""
    for name, content in case.files.items():
        with open(os.path.join(os.fsencode(folder), name_of(name)), "wb") as file:
            file.write(content)
    for name, target in case.links.items():
        os.symlink(target, os.path.join(folder, name))
    for name, other in case.twins.items():
        os.link(os.path.join(folder, other), os.path.join(folder, name))
    for name in case.pipes:
        os.mkfifo(os.path.join(folder, name))


def run_in(folder: str, case: Case, program: str, on_a_terminal: bool) -> List[str]:
    """Runs a case in an empty folder, and returns how the result differs from what is expected."""
    lay(case, folder)
    for line in case.before:
        words, _, name = line.partition(" > ")
        ran = finished([program, *shlex.split(words)], folder)
        if ran.returncode or (ran.stdout and not name) or ran.stderr:
            return [f"before: {line}: status {ran.returncode}, {shown(ran.stdout + ran.stderr)}"]
        if name:
            with open(os.path.join(folder, name), "wb") as file:
                file.write(ran.stdout)
    words, said = words_of(case, program, folder)
    if words is None:
        return [f"there is no image: {shown(said)}"]
    if not case.talk:
        return differences(case, started(case, [program, *words], folder), program, folder)
    begin = begun_on_a_terminal if on_a_terminal else begun_on_pipes
    wrong = differences(case, talked(case, begin([program, *words], folder)), program, folder)
    return [f"on a terminal, {fault}" for fault in wrong] if on_a_terminal else wrong


def run(case: Case, program: str, has_terminals: bool) -> List[str]:
    """Runs a case, a conversation also at a terminal, if there is one; returns how the result differs from what is
    expected."""
    # (a terminal has no output that can be closed alone)
    ways = (False, True) if has_terminals and case.talk and all(kind != "leaves" for kind, _ in case.talk) else (False,)
    for on_a_terminal in ways:
        with tempfile.TemporaryDirectory(prefix="case-") as folder:
            try:
                wrong = run_in(folder, case, program, on_a_terminal)
            except subprocess.TimeoutExpired as ran:
                wrong = [f"no end within {ran.timeout:.0f} seconds{' on a terminal' if on_a_terminal else ''}"]
        if wrong:
            return wrong
    return []

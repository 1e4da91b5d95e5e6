#!/usr/bin/env python3
"""Compares reports on watched runs with runs that are not watched, and with programs that report on themselves.

usage: watched.py [SEED [COUNT]] [--program PATH] [--changed] [--only WORD] [--keep FOLDER] [--files FILE.pas ..]

draws so many programs with their inputs (bench/drawing), or takes the FILEs, without input. For each:
- usage: with the most stack and heap that `go --usage` reports, and as many steps, `go` does the same; with 4 bytes of
  stack or heap less it stops for those, and with a step less it stops for steps.
- profile: the steps by routine and those by line add up to the steps of the run.
- cover: each line has the statements that an independent parser finds there, and the counts are those of the same
  program with a counter in each statement, which writes them at its end.
- trace: the values that assignments to variables of ordinal types give are those of the same program, in which each
  such assignment writes its place and its value; both in the order of the run. What the lines report as written is what
  the run writes.
--changed changes numbers of drawn programs at random, so that many end with an error: of these only usage, profile and
trace are compared.
"""

from __future__ import annotations

import argparse
import collections
import itertools
import json
import os
import random
import re
import subprocess
import sys
import tempfile
from typing import Callable, Counter, Dict, List, Set, Tuple

sys.dont_write_bytecode = True
HERE = os.path.dirname(os.path.abspath(__file__))
BENCH = os.path.dirname(HERE)
sys.path[:0] = [BENCH, f"{BENCH}/mapped", f"{os.path.dirname(BENCH)}/tests/library"]
from built import current_program
from drawing.changed import changed
from drawing.programs import drawn
from reading import Bad, Statement, blocks_of, place_of, tokens_of

STEPS = 20_000_000
STACK = HEAP = 4_194_304
SECONDS = 120
STOPPED_FOR = {"stack": "out of stack", "heap": "out of heap", "steps": "step limit"}


# the status, the output and what was said on standard error
Ended = Tuple[int, bytes, str]
# an offset, its order among the pieces at that offset, and a text that is put in there
Piece = Tuple[int, int, bytes]


class Differs(Exception):
    """What is reported is not what is there."""


class Program:
    """The command, or the program that tries ps_trace by itself (--bare), which takes other words."""

    def __init__(self, path: str, bare: bool) -> None:
        self.path, self.bare = path, bare

    def call(
        self, mode: str, source: str, given: bytes, stack: int = STACK, heap: int = HEAP, steps: int = STEPS
    ) -> Ended:
        """A run of a text, watched in a mode, or by `go` without being watched."""
        limits = ["--stack", str(stack), "--heap", str(heap), "--steps", str(steps)]
        words = {
            "go": ["go", *limits, source],
            "usage": ["go", "--usage", *limits, source],
            "json": ["trace", "--json", *limits, source],
        }
        asked = words.get(mode, [mode, *limits, source])
        if self.bare:
            asked = [{"go": "usage"}.get(mode, mode), str(stack), str(heap), str(steps), source]
        ran = subprocess.run([self.path, *asked], input=given, capture_output=True, timeout=SECONDS)
        message = ran.stderr.decode("latin-1")
        if mode == "go":
            message = re.sub(r"(?m)^steps \d+, most stack .*\n", "", message)
        return ran.returncode, ran.stdout, message


def compare_usage(program: Program, source: str, given: bytes) -> bool:
    """Whether exactly the steps, the stack and the heap that are reported are enough."""
    status, output, message = program.call("usage", source, given)
    told = re.search(r"(?m)^steps (\d+), most stack (\d+) bytes, most heap (\d+) bytes$", message)
    if not told:
        raise Differs(f"no usage: {message}")
    plain = program.call("go", source, given)
    if (status, output) != plain[:2] or plain[2] != message.replace(told.group() + "\n", ""):
        raise Differs("the run with --usage is another")
    steps, stack, heap = (int(word) for word in told.groups())
    limited = program.call("go", source, given, stack, heap, steps)
    if limited != plain:
        raise Differs(f"with {told.group()}: {limited[0]} {limited[2]}")
    for name, less in (
        ("stack", (stack - 4, heap, steps)), ("heap", (stack, heap - 4, steps)), ("steps", (stack, heap, steps - 1))
    ):
        if min(less) >= 0 and STOPPED_FOR[name] not in plain[2]:
            ended = program.call("go", source, given, *less)
            if ended == plain:
                raise Differs(f"with less {name} than {told.group()} it is the same run")
            if STOPPED_FOR[name] not in ended[2]:
                raise Differs(f"with less {name}: {ended[2]}")
    return True


def compare_profile(program: Program, source: str, given: bytes) -> bool:
    """Whether the steps by routine and those by line add up to all."""
    _, _, message = program.call("profile", source, given)
    lines = message[message.index(" steps\n") - 14 :].splitlines()
    steps = int(lines[0].split()[0])
    sums: List[int] = []
    for line in lines[1:]:
        if line.startswith("         steps"):
            sums.append(0)
        else:
            sums[-1] += int(line.split()[0])
    if sums != [steps, steps]:
        raise Differs(f"{steps} steps are {sums}")
    return True


class Text:
    """A text with its statements, by a parser that shares nothing with the compiler."""

    def __init__(self, text: bytes) -> None:
        self.text = text
        self.tokens = tokens_of(text)
        self.blocks = blocks_of(self.tokens)
        read = (statement for _, statements in self.blocks.values() for statement in statements)
        self.statements = sorted(read, key=lambda statement: statement.first)

    def offset(self, token: int) -> int:
        """The offset of a token."""
        return self.tokens[token][1]

    def is_with(self, statement: Statement) -> bool:
        """Whether a statement is a `with`."""
        return self.tokens[statement.first][0] == "with"

    def place(self, statement: Statement) -> Tuple[int, int]:
        """The line and the column of a statement."""
        return place_of(self.text, self.offset(statement.first))

    def behind(self, statement: Statement) -> int:
        """The offset after a statement's last token."""
        last = statement.end - 1
        spelled, at = self.tokens[last]
        return at + len(spelled)

    def with_pieces(self, pieces: List[Piece]) -> bytes:
        """The text with pieces put in at offsets; of those at one offset the first in the list is first."""
        out, at = b"", 0
        for offset, _, piece in sorted(pieces, key=lambda piece: piece[:2]):
            out += self.text[at:offset] + piece
            at = offset
        return out + self.text[at:]


def wrapped(
    text: Text, statements: List[Statement], before: Callable[[Statement], bytes], behind: Callable[[Statement], bytes]
) -> List[Piece]:
    """The pieces that put text before and after statements, the outer ones outside."""
    pieces: List[Piece] = []
    for statement in statements:
        first, end = statement.first, statement.end
        if end == first:  # an empty one
            continue
        pieces.append((text.offset(first), first * 1000 + len(text.tokens) - end, b"begin " + before(statement)))
        pieces.append((text.behind(statement), -first, behind(statement) + b" end"))
    return pieces


def counting(text: Text, statements: List[Statement]) -> bytes:
    """The program in which each of these statements counts how often it is done."""
    number = {id(statement): index for index, statement in enumerate(statements)}
    last = max(statement.end for statement in text.statements)
    pieces = wrapped(
        text, statements, lambda done: b"zzc[%d] := zzc[%d] + 1; " % (2 * (number[id(done)],)), lambda _: b""
    )
    words = [word for word, _ in text.tokens]
    head, begin = words.index(";"), max(text.blocks)
    declared = b" zzc: array [0..%d] of integer; zzk: integer; " % max(len(statements) - 1, 0)
    part = next((token for token in range(head, begin) if words[token] in ("var", "procedure", "function")), begin)
    at = text.offset(part)
    if words[part] == "var":
        pieces.append((at + 3, 0, declared))
    else:
        pieces.append((at, -10**9, b"var" + declared))
    pieces.append((text.offset(begin) + 5, -1, b" for zzk := 0 to %d do zzc[zzk] := 0; " % max(len(statements) - 1, 0)))
    final = text.offset(last) if last < len(text.tokens) else len(text.text)
    pieces.append(
        (final, 10**9, b"; for zzk := 0 to %d do write(chr(1), zzc[zzk]:1, chr(2)) " % max(len(statements) - 1, 0))
    )
    return text.with_pieces(pieces)


def counts_told(message: str, lines: int) -> Tuple[List[List[int]], str]:
    """For each line of the text its counts, and the last line."""
    told = message.splitlines()
    shown = told[-1 - lines : -1]
    counts = [line[:12].split() for line in shown]
    return [[0 if word == "never" else int(word) for word in words] for words in counts], told[-1]


def compare_cover(program: Program, source: str, given: bytes) -> bool:
    """Whether the reported counts are those of a program that counts by itself."""
    text = Text(open(source, "rb").read())
    status, output, message = program.call("cover", source, given)
    if status:
        return False
    statements = [statement for statement in text.statements if statement.acts or text.is_with(statement)]
    other = source[:-4] + "_counting.pas"
    with open(other, "wb") as file:
        file.write(counting(text, statements))
    ended = program.call("go", other, given, steps=10 * STEPS)
    if ended[0]:
        raise Differs(f"the counting program: {ended[2]}")
    wanted = [int(word) for word in re.findall(rb"\x01(\d+)\x02", ended[1])]
    if re.sub(rb"\x01\d+\x02", b"", ended[1]) != output:
        raise Differs("the counting program writes something else")
    lines = text.text.decode("latin-1").split("\n")
    lines = lines[:-1] if lines[-1] == "" else lines
    shown, last = counts_told(message, len(lines))
    by_line: Dict[int, List[Tuple[int, bool]]] = collections.defaultdict(list)
    for statement, count in zip(statements, wanted):
        by_line[text.place(statement)[0]].append((count, text.is_with(statement)))
    for number, counts in enumerate(shown, 1):
        if not are_told(counts, by_line[number]):
            raise Differs(f"line {number}: {counts}, wanted {by_line[number]}")
    found = re.fullmatch(r"(\d+) statements, (\d+) never done", last)
    sure = [count for statement, count in zip(statements, wanted) if not text.is_with(statement)]
    if (
        not found
        or not (len(sure) <= int(found[1]) <= len(wanted) and sure.count(0) <= int(found[2]) <= wanted.count(0))
    ):
        raise Differs(last)
    return True


def are_told(counts: List[int], wanted: List[Tuple[int, bool]]) -> bool:
    """Whether a line's counts are these; those of `with` may be left out, since it may need no code."""
    options = [(False, True) if may else (True,) for _, may in wanted]
    for chosen in itertools.product(*options):
        told = [count for (count, _), is_told in zip(wanted, chosen) if is_told]
        if counts == told or (len(counts) == 1 and told and set(told) == set(counts)):
            return True
    return False


def telling(text: Text, statements: List[Statement]) -> bytes:
    """The program in which each of these assignments writes its place and the value."""

    def behind(done: Statement) -> bytes:
        """What writes the place and the value of an assignment."""
        name = text.tokens[done.first][0].encode()
        line, column = text.place(done)
        return b"; write(chr(1), '%d:%d=', ord(%s):1, chr(2))" % (line, column, name)

    return text.with_pieces(wrapped(text, statements, lambda _: b"", behind))


def ordinal_names(text: Text) -> Set[str]:
    """Names that are declared only with types whose values can be written as numbers: `integer`, `char`, `Boolean`."""
    kinds: Dict[str, Set[str]] = collections.defaultdict(set)
    words = [word for word, _ in text.tokens]
    for token, word in enumerate(words):
        if word != ":" or token + 1 >= len(words) or words[token + 1] == "=":
            continue
        names, at = [], token - 1
        while at >= 0 and re.match(r"[a-z][a-z0-9_]*$", words[at]):
            names.append(words[at])
            if words[at - 1] != ",":
                break
            at -= 2
        for name in names:
            kinds[name].add(words[token + 1])
    routines = {
        words[token + 1] for token, word in enumerate(words[:-1]) if word in ("function", "procedure", "program")
    }
    return {name for name, types in kinds.items() if types <= {"integer", "char", "boolean"} and name not in routines}


def number_of(value: str) -> int:
    """The number of a reported value."""
    if value in ("false", "true"):
        return int(value == "true")
    found = re.fullmatch(r"chr\((\d+)\)", value)
    if found:
        return int(found[1])
    if value.startswith("'"):
        return ord(value[1])
    return int(value)


def compare_trace(program: Program, source: str, given: bytes) -> bool:
    """Whether the reported values are those of a program that writes them by itself."""
    text = Text(open(source, "rb").read())
    names = ordinal_names(text)
    words = [word for word, _ in text.tokens]
    statements = [
        each
        for each in text.statements
        if words[each.first] in names and words[each.first + 1 : each.first + 2] == [":="]
    ]
    status, output, message = program.call("json", source, given)
    if status == 4:  # the other program would be cut off elsewhere
        return False
    told = [json.loads(line) for line in message.splitlines() if line.startswith("{")]
    if "".join(line["written"] for line in told).encode("latin-1") != output:
        raise Differs("the trace writes something else")
    read = "".join(line["read"] for line in told).encode("latin-1")
    if not given.startswith(read):
        raise Differs("the trace reads something else")
    other = source[:-4] + "_telling.pas"
    with open(other, "wb") as file:
        file.write(telling(text, statements))
    ended = program.call("go", other, given, steps=10 * STEPS)
    if re.sub(rb"\x01[^\x02]*\x02", b"", ended[1]) != output:
        raise Differs("the telling program writes something else")
    written = re.findall(rb"\x01(\d+):(\d+)=(-?\d+)\x02", ended[1])
    wanted = [(int(line), int(column), int(value)) for line, column, value in written]
    assigned = {text.place(statement): words[statement.first] for statement in statements}
    traced: List[Tuple[int, int, int]] = []
    for line in told:
        place = (line["line"], line["column"])
        if place in assigned:
            changes = [change for change in line["changed"] if change["name"].lower().split(".")[-1] == assigned[place]]
            traced += [(*place, number_of(change["value"])) for change in changes]
    if traced != wanted:
        unequal = (index for index, pair in enumerate(zip(traced, wanted)) if pair[0] != pair[1])
        first = next(unequal, min(len(traced), len(wanted)))
        both = f"{len(traced)} and {len(wanted)} values"
        raise Differs(f"value {first}: {traced[first:first+1]}, wanted {wanted[first:first+1]}; {both}")
    return True


# how often something that is compared came out in a way
Sums = Counter[Tuple[str, str]]
COMPARED: Dict[str, Callable[[Program, str, bytes], bool]] = {
    "usage": compare_usage,
    "profile": compare_profile,
    "cover": compare_cover,
    "trace": compare_trace,
}


def compared(program: Program, name: str, source: str, given: bytes, asked: argparse.Namespace, sums: Sums) -> None:
    """Compares everything that is asked for, and counts the results."""
    for kind, compare in COMPARED.items():
        if (asked.only and kind != asked.only) or (asked.changed and kind == "cover"):
            continue
        try:
            sums[kind, "agrees" if compare(program, source, given) else "not compared"] += 1
        except subprocess.TimeoutExpired:
            sums[kind, "late"] += 1
        except (Differs, Bad, KeyError, IndexError, ValueError) as fault:
            sums[kind, "differs"] += 1
            print(f"{name}: {kind}: {type(fault).__name__} {fault}", flush=True)
            if asked.keep:
                os.makedirs(asked.keep, exist_ok=True)
                for path, content in ((f"{name}.pas", open(source, "rb").read()), (f"{name}.input", given)):
                    with open(f"{asked.keep}/{path}", "wb") as file:
                        file.write(content)


def main() -> int:
    words = argparse.ArgumentParser()
    words.add_argument("seed", nargs="?", type=int, default=1)
    words.add_argument("count", nargs="?", type=int, default=100)
    words.add_argument("--program")
    words.add_argument("--bare", action="store_true")
    words.add_argument("--changed", action="store_true")
    words.add_argument("--only")
    words.add_argument("--keep")
    words.add_argument("--files", nargs="*", default=[])
    asked = words.parse_args()
    program = Program(asked.program or current_program(), asked.bare)
    sums: Sums = collections.Counter()
    with tempfile.TemporaryDirectory(prefix="watched-") as work:
        cases = [(os.path.basename(path)[:-4], open(path, "rb").read(), b"") for path in asked.files]
        for number in range(0 if asked.files else asked.count):
            draw = random.Random(f"{asked.seed}-{number}")
            text, given = drawn(draw)
            cases.append(
                (f"{asked.seed}-{number}", (changed(draw, text) if asked.changed else text).encode(), given.encode())
            )
        for name, text, given in cases:
            source = f"{work}/p.pas"
            with open(source, "wb") as file:
                file.write(text)
            if program.call("go", source, given)[0] == 1:
                sums["all", "refused"] += 1
                continue
            compared(program, name, source, given, asked, sums)
    print(", ".join(f"{kind} {word}: {count}" for (kind, word), count in sorted(sums.items())))
    return int(any(word == "differs" for _, word in sums))


if __name__ == "__main__":
    sys.exit(main())

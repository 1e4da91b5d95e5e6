#!/usr/bin/env python3
"""Compares what `pascal why` reports of drawn programs that end with an error with what the reference interpreter has
there.

usage: ends.py [SEED [COUNT]] [--program PATH] [--reference PATH] [--keep FOLDER]

Draws programs with their inputs as `bench/programs --changed` does, and changes each in several ways, until COUNT of
them ended with an error. For each the following must be the same: the number and the line of the error; the lines, the
routines and the count of the open calls; the value of each variable of each open call, and of the objects that they
lead to. Values are read from the words of `why`. PATH of --program takes the words of `pascal`; that of --reference is
the program of runs_ends/, compiled with the changed interpreter (reference.py); without it `rt try` compiles it, and
runs it on the drawn programs.
"""

from __future__ import annotations

import argparse
import json
import os
import random
import re
import subprocess
import sys
import tempfile
from typing import Any, Dict, List, Optional, Set, Tuple

sys.dont_write_bytecode = True
HERE = os.path.dirname(os.path.abspath(__file__))
sys.path.insert(0, os.path.dirname(HERE))
sys.path.insert(0, HERE)
import reference
from drawing.changed import changed
from drawing.programs import drawn
from reading import Bad

STEPS = "3000000"
CHANGES = 6  # of each program that is drawn
MOST_CHANGED = 8  # numbers of a program
# the ordinals that a name may denote
Constants = Dict[str, Set[int]]
# a value: None for nil, a list of components, or a pair of its kind and what it is
Value = Any
# a routine's number, and the values of its variables
Frame = Tuple[int, List[Value]]


def constants_of(text: str) -> Constants:
    """The ordinals of the constants of enumerated types, by their names in small letters; several if a name denotes
    several."""
    found: Constants = {"false": {0}, "true": {1}}
    for match in re.finditer(
        r"(?:[=:\[]|\bof|,)\s*\(\s*([A-Za-z]\w*(?:\s*,\s*[A-Za-z]\w*)*)\s*\)", re.sub(r":=", "  ", text)
    ):
        for number, name in enumerate(re.split(r"\s*,\s*", match[1])):
            found.setdefault(name.lower(), set()).add(number)
    return found


WORD = re.compile(r"\s*('(?:[^']|'')*'|-?\d+|\.\.|[A-Za-z]\w*|[()\[\],:?])")


class Values:
    """Reads a value from the words that describe it."""

    def __init__(self, shown: str, constants: Constants) -> None:
        self.words, self.at, self.constants = WORD.findall(shown), 0, constants
        if "".join(self.words) != re.sub(r"\s", "", shown) and "'" not in shown:
            raise Bad(f"words of {shown}")

    def word(self, ahead: int = 0) -> str:
        """A word, without taking it; nothing at the end."""
        return self.words[self.at + ahead] if self.at + ahead < len(self.words) else ""

    def take(self, word: Optional[str] = None) -> str:
        """Takes a word, which must be the given one, if any is."""
        found = self.word()
        if word is not None and found != word:
            raise Bad(f"{word} wanted in {self.words}")
        self.at += 1
        return found

    def ordinal(self) -> Set[int]:
        """The numbers that the words may denote."""
        word = self.take()
        if re.fullmatch(r"-?\d+", word):
            return {int(word)}
        if word == "chr":
            self.take("(")
            number = int(self.take())
            self.take(")")
            return {number}
        if word.startswith("'"):
            return {ord(word[1:-1].replace("''", "'"))}
        if word.lower() in self.constants:
            return self.constants[word.lower()]
        raise Bad(f"no value: {word}")

    def members(self) -> Value:
        """The members of a set."""
        found: List[Tuple[Set[int], Set[int]]] = []
        self.take("[")
        while self.word() != "]":
            low = high = self.ordinal()
            if self.word() == "..":
                self.take()
                high = self.ordinal()
            found.append((low, high))
            if self.word() == ",":
                self.take()
        self.take("]")
        return ("set", found)

    def value(self) -> Value:
        """The value that the words describe."""
        word = self.word()
        if word == "nil":
            self.take()
            return None
        if word == "object":
            self.take()
            return ("object", int(self.take()))
        if word == "[":
            return self.members()
        if word == "(":
            self.take()
            parts = []
            while self.word() != ")":
                if self.word(1) == ":":
                    self.at += 2
                parts.append(self.value())
                if self.word() == ",":
                    self.take()
            self.take(")")
            return parts
        if word.startswith("'") and (len(word) > 3 and word != "''''" or len(word) == 2):
            self.take()
            return ("text", word[1:-1].replace("''", "'"))
        return ("ordinal", self.ordinal())


def raw(words: List[str]) -> Value:
    """A value as the reference prints it: a number, `nil`, `@OBJECT`, `{ MEMBERS }` or `[ PARTS ]`."""
    word = words.pop(0)
    if word == "nil":
        return None
    if word.startswith("@"):
        return ("object", int(word[1:]))
    if word == "{":
        found = set()
        while words[0] != "}":
            found.add(int(words.pop(0)))
        words.pop(0)
        return ("set", found)
    if word == "[":
        parts = []
        while words[0] != "]":
            parts.append(raw(words))
        words.pop(0)
        return parts
    return ("ordinal", int(word))


def same(told: Value, real: Value, objects: Dict[int, int], todo: List[int]) -> bool:
    """Whether a reported value is one that the reference has. Objects are matched with one another."""
    if told is None or real is None:
        return told is None and real is None
    if isinstance(real, list):
        if isinstance(told, tuple) and told[0] == "text":
            return (
                len(told[1]) == len(real)
                and all(c == "." or ("ordinal", ord(c)) == part for c, part in zip(told[1], real))
            )
        if isinstance(told, tuple) and told[0] == "ordinal" and len(real) == 1:
            return real[0][0] == "ordinal" and real[0][1] in told[1]
        return (
            isinstance(told, list)
            and len(told) == len(real)
            and all(same(a, b, objects, todo) for a, b in zip(told, real))
        )
    if not isinstance(told, tuple) or told[0] != real[0]:
        return False
    if told[0] == "ordinal":
        return real[1] in told[1]
    if told[0] == "object":
        if objects.setdefault(told[1], real[1]) != real[1]:
            return False
        todo.append(told[1])
        return True
    found = set()
    for low, high in told[1]:
        for first in low:
            for last in high:
                found |= set(range(first, last + 1))
    return found == real[1] or any(len(low) > 1 for low, _ in told[1]) and found >= real[1]


def reference_of(answer: str) -> Tuple[List[str], List[int], List[Frame], Dict[int, Value]]:
    """The ending, the lines of the open calls, the frames with the values of their entries, and the objects."""
    lines = answer.splitlines()
    ending, calls = lines[0].split(), []
    frames: List[Frame] = []
    objects: Dict[int, Value] = {}
    for line in lines[1:]:
        words = line.split()
        if words[0] == "called":
            calls.append(int(words[1]))
        elif words[0] == "frame":
            frames.append((int(words[1]), []))
        elif words[0] == "object":
            objects[int(words[1])] = raw(words[2:])
        elif words[0] == "routine":
            frames[-1][1].append(("routine", int(words[1])))
        else:
            frames[-1][1].append(raw(words))
    return ending, calls, frames, objects


def names_of(shown: str) -> List[Tuple[str, List[str]]]:
    """The names of the routines of a map, and of their variables."""
    routines: List[Tuple[str, List[str]]] = []
    for line in shown.splitlines():
        words = line.split(" ")
        if words[0] == "routine":
            routines.append((words[5], []))
        elif words[0] == "variable":
            routines[int(words[1])][1].append(words[5])
    return routines


def compare_frame(
    call: Dict[str, Any],
    frame: Frame,
    routines: List[Tuple[str, List[str]]],
    constants: Constants,
    objects: Dict[int, int],
    todo: List[int],
) -> None:
    """Whether an open call is of the routine of a frame, and its variables have the values of that."""
    routine, values = frame
    name, variables = routines[routine]
    if call["routine"] != name:
        raise Bad(f"in {call['routine']}, and not in {name}")
    if [told["name"] for told in call["variables"]] != variables:
        raise Bad(f"variables {call['variables']} of {name}")
    for told, real in zip(call["variables"], values):
        if isinstance(real, tuple) and real[0] == "routine":
            if told["value"] != routines[real[1]][0]:
                raise Bad(f"{name}: {told}, and not {routines[real[1]][0]}")
        elif not same(Values(told["value"], constants).value(), real, objects, todo):
            raise Bad(f"{name}: {told}, and not {real}")


def compare_found(told: Dict[str, Any]) -> None:
    """Whether the value that the error found is one that is such an error."""
    value, number = told.get("value"), told["number"]
    if value is None:
        return
    low, high = told.get("low"), told.get("high")
    if number == 1:
        low, high = -(2**31), 2**31 - 1
    if number in (3, 11):
        low, high = 1, 2**31 - 1
    if low is not None and low <= value <= high:
        raise Bad(f"{told['text']}: {value} is no such error")


def compare(text: str, told: Dict[str, Any], real: Any, shown: str) -> int:
    """Compares what is reported with what the reference has, and returns how many values that were."""
    ending, calls, frames, made = real
    if told["ending"] != "error" or [told["number"], told["line"]] != [int(ending[1]), int(ending[2])]:
        raise Bad(f"{told['ending']} {told.get('number')} at {told.get('line')}, and not {ending}")
    compare_found(told)
    if told["open"] != len(frames) or len(told["calls"]) != len(frames):
        raise Bad(f"{told['open']} calls are open, and not {len(frames)}")
    lines = [call["called"]["line"] for call in told["calls"] if "called" in call]
    if lines != calls:
        raise Bad(f"called at {lines}, and not at {calls}")
    constants, routines, objects, todo = constants_of(text), names_of(shown), {}, []
    for call, frame in zip(told["calls"], frames):
        compare_frame(call, frame, routines, constants, objects, todo)
    done = set()
    while todo:
        number = todo.pop()
        if number in done:
            continue
        done.add(number)
        if not same(Values(told["objects"][number - 1], constants).value(), made[objects[number]], objects, todo):
            raise Bad(f"object {number}: {told['objects'][number - 1]}, and not {made[objects[number]]}")
    return sum(len(frame[1]) for frame in frames) + len(done)


def account_of(program: str, path: str, given: bytes) -> Optional[Dict[str, Any]]:
    """What `why` reports, or None if the text has no run that ends with an error."""
    run = subprocess.run([program, "why", "--json", "--all", "--steps", STEPS, path], input=given, capture_output=True)
    if run.returncode != 2:
        return None
    account: Dict[str, Any] = json.loads(run.stderr.decode("latin-1").strip().split("\n")[-1])
    return account


def map_of(program: str, path: str) -> str:
    """The map of a text."""
    subprocess.run([program, "compile", "--map", f"{path}.map", path, f"{path}.img"], check=True, capture_output=True)
    return open(f"{path}.map", encoding="latin-1").read()


class End:
    """A drawn program that ended with an error: its name, its text and input, what `why` reports, and its map."""

    def __init__(self, name: str, text: str, given: str, told: Dict[str, Any], shown: str) -> None:
        self.name, self.text, self.given, self.told, self.shown = name, text, given, told, shown

    def keep(self, folder: str) -> None:
        """Saves the program, its input and what `why` reports."""
        os.makedirs(folder, exist_ok=True)
        for ending, content in (("pas", self.text), ("in", self.given), ("json", json.dumps(self.told, indent=1))):
            with open(f"{folder}/{self.name}.{ending}", "w", encoding="latin-1") as file:
                file.write(content)


def ends_of(asked: argparse.Namespace, work: str) -> Tuple[List[End], int]:
    """As many drawn programs that ended with an error as are asked for, and how many were drawn."""
    found: List[End] = []
    number = 0
    while len(found) < asked.count:
        if number % CHANGES == 0:
            whole, given = drawn(random.Random(f"{asked.seed}-{number // CHANGES}"))
        text = changed(random.Random(f"{asked.seed}-{number}"), whole, MOST_CHANGED)
        path = f"{work}/p.pas"
        with open(path, "w", encoding="latin-1") as file:
            file.write(text)
        account = account_of(asked.program, path, given.encode())
        if account is not None:
            found.append(End(f"{asked.seed}-{number}", text, given, account, map_of(asked.program, path)))
        number += 1
    return found, number


def main() -> int:
    words = argparse.ArgumentParser()
    words.add_argument("seed", nargs="?", type=int, default=1)
    words.add_argument("count", nargs="?", type=int, default=100)
    words.add_argument("--program", default=os.path.join(reference.TOP, "pascal"))
    words.add_argument("--reference")
    words.add_argument("--keep")
    asked = words.parse_args()
    values = bad = late = 0
    with tempfile.TemporaryDirectory(prefix="ends-") as work:
        ends, tried = ends_of(asked, work)
        inputs = [end.text.encode("latin-1") + b"\x01" + end.given.encode() for end in ends]
        for end, answer in zip(ends, reference.answers(work, asked.reference, inputs)):
            shown = answer.decode("latin-1")
            if shown.split()[:1] in ([], ["deep"], ["more"], ["memory"]):
                late += 1
                continue
            try:
                values += compare(end.text, end.told, reference_of(shown), end.shown)
            except (Bad, KeyError, IndexError, ValueError) as fault:
                bad += 1
                print(f"{end.name}: {type(fault).__name__} {fault}", flush=True)
                if asked.keep:
                    end.keep(asked.keep)
    print(
        f"seed {asked.seed}: {len(ends)} ends with an error of {tried} programs, {values} values and objects; "
        f"{bad} differ, {late} are too long for the reference"
    )
    return int(bad != 0)


if __name__ == "__main__":
    sys.exit(main())

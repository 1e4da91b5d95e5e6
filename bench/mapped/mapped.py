#!/usr/bin/env python3
"""Compares maps of images with what an independent reader finds in the texts.

usage: mapped.py [--program PATH] FILE.pas ..

The program at PATH, or the launcher `pascal`, writes the map (`compile --map`) and the listing (`list`) of each text.
The texts are read again here, by a parser that shares nothing with the compiler: it finds each block with its name, its
parameters, its variables and its `begin`, and each statement with its extent. Then for each map:
- its routines are the blocks, by the places of their `begin`, with their names;
- their variables are the result, the parameters and the variables of the block, with their kinds and types, and their
  homes follow one another;
- its rows increase, and the routines come one after another in the order of their numbers;
- each statement of a row is one of that block, and each token begins a token within that statement;
- the words of a statement and of those within it are contiguous;
- each statement that does something has words;
- if the listing gives the line of a stop, the row of that word has a token on that line.
"""

from __future__ import annotations

import argparse
import os
import re
import subprocess
import sys
import tempfile
from typing import Dict, List, NamedTuple, Optional, Tuple

sys.dont_write_bytecode = True
from reading import Bad, Declared, Statement, blocks_of, place_of, tokens_of

TOP = os.path.dirname(os.path.dirname(os.path.dirname(os.path.abspath(__file__))))

# the line and the column of a token
Place = Tuple[int, int]


class Routine(NamedTuple):
    """A routine of a map: its first word, the words of its frame, the place of its `begin`, its name, and its variables
    as (role, name, type)."""

    word: int
    frame: int
    begin: Optional[Place]
    name: str
    entries: List[Tuple[str, str, str]]


class Row(NamedTuple):
    """A row of a map: a word, what it belongs to, and the places of the statement and of the token."""

    word: int
    owner: Tuple[str, ...]
    statement: Optional[Place]
    token: Optional[Place]



def place_in(word: str) -> Optional[Place]:
    """The line and the column of a word `LINE:COLUMN`, or None for a hyphen."""
    if word == "-":
        return None
    line, column = word.split(":")
    return int(line), int(column)


def map_in(lines: List[str]) -> Tuple[List[Routine], List[Row]]:
    """Routines and rows of a map."""
    if lines[0] != "pascal map 1":
        raise Bad("no map")
    routines: List[Routine] = []
    rows: List[Row] = []
    for line in lines[1:]:
        words = line.split(" ")
        if words[0] == "routine":
            if int(words[1]) != len(routines) or rows:
                raise Bad(line)
            routines.append(Routine(int(words[2]), int(words[3]), place_in(words[4]), words[5].lower(), []))
            homes = [4]
        elif words[0] == "variable":
            if int(words[1]) + 1 != len(routines) or int(words[2]) != homes[-1]:
                raise Bad(line)
            homes.append(int(words[2]) + int(words[3]))
            routines[-1].entries.append((words[4], words[5].lower(), " ".join(words[6:])))
        elif words[0] == "word":
            owner = tuple(words[2:4]) if words[2] in ("routine", "run-time") else (words[2],)
            places: List[Optional[Place]] = [None, None]
            if words[2] == "routine":
                places = [place_in(word) for word in words[4:6]]
            elif words[2] == "start":
                places[1] = place_in(words[3])
            rows.append(Row(int(words[1]), owner, *places))
        else:
            raise Bad(line)
    return routines, rows


def is_type(shown: str, words: List[str]) -> bool:
    """Whether these words describe a type; a long one is cut off, with ` ..` at its end."""
    if shown.endswith(" .."):
        return "".join(words).lower().startswith(re.sub(r"\s", "", shown[:-3]).lower())
    return [word for word, _ in tokens_of(shown.encode("latin-1"))] == words


def compare_entries(declared: Declared, mapped: List[Tuple[str, str, str]]) -> None:
    """Whether the variables of a routine are those that are declared."""
    if [(role, name) for role, name, _ in declared.entries] != [(role, name) for role, name, _ in mapped]:
        raise Bad(f"{declared.name} has {mapped}, and not {declared.entries}")
    for (_, name, words), (_, _, shown) in zip(declared.entries, mapped):
        if words and not is_type(shown, words):
            raise Bad(f"{name} of {declared.name} is of type {shown}, and not {words}")


def compare_routines(
    routines: List[Routine], begins: List[int], blocks: Dict[int, Tuple[Declared, List[Statement]]]
) -> None:
    """Whether the routines are the blocks, with their names and variables."""
    if sorted(begins) != sorted(blocks):
        raise Bad(f"blocks {sorted(blocks)}, routines {sorted(begins)}")
    for routine, begin in zip(routines, begins):
        declared, _ = blocks[begin]
        if declared.name != routine.name:
            raise Bad(f"{routine.name} is {declared.name}")
        compare_entries(declared, routine.entries)


def compare_order(routines: List[Routine], rows: List[Row]) -> None:
    """Whether the rows increase, and the routines come one after another in the order of their numbers."""
    previous = -1
    for row in rows:
        if row.word <= previous:
            raise Bad(f"row {row.word} behind {previous}")
        previous = row.word
    order = [row.owner for row in rows]
    seen = [owner for number, owner in enumerate(order) if number == 0 or order[number - 1] != owner]
    numbers = [int(owner[1]) for owner in seen if owner[0] == "routine"]
    if seen[0] != ("start",) or numbers != list(range(len(routines))) or len(set(seen)) != len(seen):
        raise Bad(f"owners {seen}")


def statement_of(row: Row, statements: Dict[int, Statement], token_at: Dict[Place, int]) -> Optional[Statement]:
    """The statement of a row; its token lies in that."""
    if row.token is not None and row.token not in token_at:
        raise Bad(f"no token at {row.token}")
    if row.statement is None:
        return None
    # (a compound statement and the first of its sequence begin at different tokens, and only empty ones share an `end`)
    if token_at.get(row.statement) not in statements:
        raise Bad(f"no statement at {row.statement}")
    statement = statements[token_at[row.statement]]
    if row.token is not None and not statement.first <= token_at[row.token] < statement.end:
        raise Bad(f"token {row.token} outside the statement at {row.statement}")
    return statement


def compare(text: bytes, shown: str, listing: str) -> int:
    """Compares the map of a text, and returns how many stops its listing has."""
    routines, rows = map_in(shown.splitlines())
    tokens = tokens_of(text)
    token_at = {place_of(text, offset): number for number, (_, offset) in enumerate(tokens)}
    blocks = blocks_of(tokens)
    begins = [token_at[routine.begin] for routine in routines if routine.begin]
    compare_routines(routines, begins, blocks)
    compare_order(routines, rows)
    firsts: List[List[int]] = [[] for _ in routines]
    for row in rows:
        if row.owner[0] != "routine":
            continue
        number = int(row.owner[1])
        if routines[number].word > row.word:
            raise Bad(f"word {row.word} before its routine")
        statement = statement_of(row, {each.first: each for each in blocks[begins[number]][1]}, token_at)
        if statement is not None:
            firsts[number].append(statement.first)
    for number, begin in enumerate(begins):
        check_block(blocks[begin][1], firsts[number])
    return check_lines(rows, listing)


def check_block(statements: List[Statement], firsts: List[int]) -> None:
    """The words of each statement are contiguous, and what acts has words."""
    for statement in statements:
        inside = [statement.first <= first < max(statement.end, statement.first + 1) for first in firsts]
        if True in inside:
            low, high = inside.index(True), len(inside) - inside[::-1].index(True)
            if not all(inside[low:high]):
                raise Bad(f"the words of the statement at token {statement.first} don't stand together")
        elif statement.acts:
            raise Bad(f"no word of the statement at token {statement.first}")


def check_lines(rows: List[Row], listing: str) -> int:
    """Each stop's line is that of the token of its word. Gives how many there are."""
    at, count = -1, 0
    for number, line in enumerate(listing.splitlines()):
        while at + 1 < len(rows) and rows[at + 1].word <= number:
            at += 1
        stop = re.search(r" ; line (\d+)$", line)
        if not stop or rows[at].owner[0] == "run-time":
            continue
        token = rows[at].token
        if token is None and stop[1] == "1":  # a stop that never comes: of the look-up of a member in a set
            continue
        count += 1
        if token is None or token[0] != int(stop[1]):
            raise Bad(f"word {number}: line {stop[1]}, token {token}")
    return count


def run(words: List[str]) -> "subprocess.CompletedProcess[bytes]":
    return subprocess.run(words, capture_output=True)


def map_and_listing(program: str, path: str, work: str) -> Optional[Tuple[str, str]]:
    """The map and the listing of a text, or None if it is refused."""
    made = run([program, "compile", "--map", f"{work}/map", path, f"{work}/image"])
    listed = run([program, "list", path])
    if made.returncode or listed.returncode:
        return None
    return open(f"{work}/map", encoding="latin-1").read(), listed.stdout.decode("latin-1")


def main() -> int:
    words = argparse.ArgumentParser()
    words.add_argument("--program", default=f"{TOP}/pascal")
    words.add_argument("files", nargs="+")
    asked = words.parse_args()
    good = bad = refused = stops = 0
    with tempfile.TemporaryDirectory(prefix="mapped-") as work:
        for name in asked.files:
            text = open(name, "rb").read()
            both = map_and_listing(asked.program, name, work)
            if both is None:
                refused += 1
                continue
            try:
                stops += compare(text, *both)
                good += 1
            except (Bad, KeyError, IndexError) as fault:
                bad += 1
                print(f"{name}: {type(fault).__name__} {fault}")
    print(f"{good} maps as they are read here, {bad} not, {refused} texts refused, {stops} stops")
    return int(bad != 0)


if __name__ == "__main__":
    sys.exit(main())

"""A reader of Pascal texts that shares nothing with the compiler: tokens, statements, and what blocks declare."""

from __future__ import annotations

import re
from typing import Collection, Dict, List, Optional, Tuple

# the spelling of a token, a word in small letters, and its offset
Token = Tuple[str, int]
# the role, the name and the words of the type of what a routine has: its result, a parameter, a variable
Entry = Tuple[str, str, List[str]]

TOKEN = re.compile(rb"""(?P<space>[ \t\r\n\f]+|\{[^}]*?(?:\}|\*\))|\(\*.*?(?:\*\)|\}))|(?P<word>[A-Za-z][A-Za-z0-9_]*)|(?P<number>[0-9]+)
|(?P<text>'(?:[^'\n]|'')*')|(?P<sign>:=|<>|<=|>=|\.\.|\(\.|\.\)|[-+*/=<>()\[\]{},;:.^@])""", re.X | re.S)

# Words that end an expression if nothing is open.
ENDS = {";", "then", "do", "of", "to", "downto", "end", "until", "else"}


class Bad(Exception):
    """Something is not as it must be."""


def tokens_of(text: bytes) -> List[Token]:
    """The tokens of a text as pairs of their spelling in small letters and their offset."""
    found: List[Token] = []
    at = 0
    while at < len(text):
        match = TOKEN.match(text, at)
        if not match:
            raise Bad(f"no token at {at}")
        if match.lastgroup != "space":
            word = match.group().decode("latin-1")
            found.append((word if match.lastgroup == "text" else word.lower(), at))
        at = match.end()
    return found


class Statement:
    """A statement: its number in its block, its first token, the one after it, and whether it does something."""

    def __init__(self, number: int, first: int) -> None:
        self.number, self.first, self.end, self.acts = number, first, first, False
        self.parts: List[Statement] = []


class Reader:
    """Reads the statements of one block, token by token."""

    def __init__(self, tokens: List[Token], at: int) -> None:
        self.tokens, self.at = tokens, at
        self.all: List[Statement] = []

    def word(self) -> str:
        """The word here, without taking it."""
        return self.tokens[self.at][0] if self.at < len(self.tokens) else "."

    def take(self, word: Optional[str] = None) -> None:
        """Takes a word, which must be the given one, if any is."""
        if word is not None and self.word() != word:
            raise Bad(f"{word} wanted at {self.tokens[self.at]}")
        self.at += 1

    def skip(self, ends: Collection[str]) -> None:
        """Skips an expression, a variable or parameters: to the next of some words that isn't in parentheses."""
        open_ = 0
        while open_ or self.word() not in ends:
            if self.word() in ("(", "[", "(."):
                open_ += 1
            elif self.word() in (")", "]", ".)"):
                open_ -= 1
            self.take()

    def statement(self) -> Statement:
        """Reads a statement."""
        read = Statement(len(self.all) + 1, self.at)
        self.all.append(read)
        head = self.word()
        if head == "begin":
            self.take()
            self.sequence(read, "end")
        elif head == "repeat":
            self.take()
            self.sequence(read, "until")
            self.skip(ENDS)
            read.acts = True
        elif head == "if":
            self.skip({"then"}); self.take()
            read.parts.append(self.statement())
            if self.word() == "else":
                self.take()
                read.parts.append(self.statement())
            read.acts = True
        elif head in ("while", "with", "for"):
            self.skip({"do"}); self.take()
            read.parts.append(self.statement())
            read.acts = head != "with"
        elif head == "case":
            self.skip({"of"}); self.take()
            while self.word() != "end":
                self.skip({":"}); self.take()
                read.parts.append(self.statement())
                if self.word() == ";":
                    self.take()
            self.take("end")
            read.acts = True
        elif head not in ENDS:
            self.skip(ENDS)
            read.acts = True
        read.end = self.at
        return read

    def sequence(self, whole: Statement, last: str) -> None:
        """Reads statements up to a word."""
        whole.parts.append(self.statement())
        while self.word() == ";":
            self.take()
            whole.parts.append(self.statement())
        self.take(last)


class Declared:
    """What is declared of a routine: its name, and its result, parameters and variables as (role, name, words of the
    type)."""

    def __init__(self, name: str, entries: List[Entry]) -> None:
        self.name, self.entries = name, entries


class Declarations:
    """Reads the headings and the declarations of variables."""

    def __init__(self, tokens: List[Token]) -> None:
        self.tokens = tokens
        self.open: List[Declared] = []
        self.forward: Dict[Tuple[int, str], List[Entry]] = {}
        self.blocks: Dict[int, Tuple[Declared, List[Statement]]] = {}

    def word(self, at: int) -> str:
        """The word of a token."""
        return self.tokens[at][0]

    def denoter(self, at: int, ends: Collection[str]) -> Tuple[int, List[str]]:
        """The token after a type, and its words."""
        words, open_ = [], 0
        while open_ or self.word(at) not in ends:
            open_ += (self.word(at) in ("(", "[", "record")) - (self.word(at) in (")", "]", "end"))
            words.append(self.word(at))
            at += 1
        return at, words

    def names(self, at: int) -> Tuple[int, List[str]]:
        """Names with commas between them, and the token after the colon."""
        found = [self.word(at)]
        while self.word(at + 1) == ",":
            at += 2
            found.append(self.word(at))
        return at + 2, found

    def past(self, at: int) -> int:
        """The token after the parenthesis that is open there, and after a result."""
        open_ = 1
        while open_:
            open_ += (self.word(at) == "(") - (self.word(at) == ")")
            at += 1
        return at

    def formals(self, at: int) -> Tuple[int, List[Entry]]:
        """Formal parameters after their parenthesis: the token after the closing one, and the entries."""
        entries: List[Entry] = []
        while True:
            head = self.word(at)
            if head in ("procedure", "function"):
                entries.append(("routine", self.word(at + 1), []))
                at += 2
                if self.word(at) == "(":
                    at = self.past(at + 1)
                if head == "function":
                    at, _ = self.denoter(at + 1, (";", ")"))
            else:
                role = "reference" if head == "var" else "value"
                at, names = self.names(at + (head == "var"))
                at, words = self.denoter(at, (";", ")"))
                entries += [(role, name, words) for name in names]
            if self.word(at) == ")":
                return at + 1, entries
            at += 1

    def heading(self, at: int) -> int:
        """The heading at a token: the token after its semicolon, or after `forward`."""
        head, name = self.word(at), self.word(at + 1)
        entries: List[Entry] = []
        at += 2
        key = (len(self.open), name)
        if self.word(at) == "(":
            at, entries = (self.denoter(at, (";",))[0], []) if head == "program" else self.formals(at + 1)
        if self.word(at) == ":":
            at, words = self.denoter(at + 1, (";",))
            entries.insert(0, ("result", name, words))
        elif key in self.forward and not entries:
            entries = self.forward[key]
        if self.word(at + 1) == "forward":
            self.forward[key] = entries
            return at + 3
        self.open.append(Declared(name, list(entries)))
        return at + 1

    def variables(self, at: int) -> int:
        """The variables after `var`: the token after them."""
        while re.match(r"[a-z]", self.word(at)) and self.word(at) not in ("procedure", "function", "begin"):
            at, names = self.names(at)
            at, words = self.denoter(at, (";",))
            self.open[-1].entries += [("own", name, words) for name in names]
            at += 1
        return at

    def read(self) -> Dict[int, Tuple[Declared, List[Statement]]]:
        """The blocks by the tokens of their `begin`: what each declares, and its statements."""
        at = 0
        while at < len(self.tokens):
            word = self.word(at)
            if word in ("program", "procedure", "function"):
                at = self.heading(at)
            elif word == "var":
                at = self.variables(at + 1)
            elif word == "begin":
                reader = Reader(self.tokens, at)
                top = Statement(0, at)
                reader.take()
                reader.sequence(top, "end")
                self.blocks[at] = (self.open.pop(), reader.all)
                at = reader.at
            else:
                at += 1
        return self.blocks


def blocks_of(tokens: List[Token]) -> Dict[int, Tuple[Declared, List[Statement]]]:
    """The blocks: the token of each `begin` with what is declared, and the statements."""
    return Declarations(tokens).read()


def place_of(text: bytes, offset: int) -> Tuple[int, int]:
    """The line and the column of an offset."""
    before = text[:offset]
    return (before.count(b"\n") + 1, offset - (before.rfind(b"\n") + 1) + 1)

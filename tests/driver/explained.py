"""Cases made from docs/EXPLAIN.md: each page's programs and sessions do what the page says; tests/README.md describes
them.
"""

from __future__ import annotations

import os
import re
import subprocess
import tempfile
from dataclasses import dataclass, field
from typing import Callable, Dict, Iterator, List, Set, Tuple

import runs
from cases import TOP, Case

PAGES = "docs/EXPLAIN.md"
LABEL = re.compile(r"(Wrong|Right|Input|Writes|Says|Session|File (\S+)|Bytes (\S+)):")
WIDTH = 80  # signs of a line that is shown
# pages of what no program and no session can show
SHOWN_BY_NOTHING = ("51 BadPlacement",)
# what a text is refused with, an error, a stop, the limit of steps
STATUS = ((r"refused", 1), (r"line \d+: out of (stack|heap)", 3), (r"line \d+: ", 2), (r"step limit", 4))
# the sections of ISO 7185 that a page may name
SECTIONS = {
    "1.2": [""],
    "3.1": [""],
    "6.1": ["", *(f".{number}" for number in range(1, 10))],
    "6.2": ["", ".1", ".2", ".3", *(f".2.{number}" for number in range(1, 14))],
    "6.3": [""],
    "6.4": [
        "", ".1", ".2", *(f".2.{number}" for number in range(1, 5)), ".3", *(f".3.{number}" for number in range(1, 6))
    ]
    + [".4", ".5", ".6", ".7"],
    "6.5": ["", ".1", ".2", ".3", ".3.1", ".3.2", ".3.3", ".4", ".5"],
    "6.6": [
        "",
        ".1",
        ".2",
        ".3",
        *(f".3.{number}" for number in range(1, 9)),
        ".4",
        ".5",
        *(f".5.{number}" for number in range(1, 5)),
    ]
    + [".6", *(f".6.{number}" for number in range(1, 6))],
    "6.7": ["", ".1", ".2", *(f".2.{number}" for number in range(1, 6)), ".3"],
    "6.8": [
        "", ".1", ".2", *(f".2.{number}" for number in range(1, 5)), ".3", *(f".3.{number}" for number in range(1, 11))
    ],
    "6.9": ["", ".1", ".2", ".3", *(f".3.{number}" for number in range(1, 7)), ".4", ".5"],
    "6.10": [""],
}


@dataclass
class Block:
    """A text of a page that comes after a label, and the line of the label."""

    label: str
    text: str
    line: int


@dataclass
class Page:
    """A page: its title, its line, its blocks, and the lines of its prose."""

    title: str
    line: int
    blocks: List[Block] = field(default_factory=list)
    prose: List[Tuple[int, str]] = field(default_factory=list)

    def place(self, line: int) -> str:
        """A place on the page, as failures name it."""
        return f"{PAGES}:{line}"


@dataclass
class Trial:
    """Something of a page that can be tried."""

    name: str
    place: str
    run: Callable[[], List[str]]


def text_of(path: str) -> str:
    """The text of a file of the repository."""
    with open(f"{TOP}/{path}", encoding="utf-8") as file:
        return file.read()


# ---- the pages


def lines_of_block(lines: List[str], at: int) -> List[str]:
    """The lines of an indented text that begins there, without the indentation and the empty lines around it."""
    end = at
    while end < len(lines) and (not lines[end] or lines[end].startswith("    ")):
        end += 1
    return "\n".join(line[4:] for line in lines[at:end]).strip("\n").split("\n")


def pages() -> List[Page]:
    """The pages, in their order."""
    found: List[Page] = []
    lines = text_of(PAGES).split("\n")
    for number, line in enumerate(lines, 1):
        label = LABEL.fullmatch(line)
        if line.startswith("## "):
            found.append(Page(line[3:], number))
        elif found and label:
            text = "".join(f"{line}\n" for line in lines_of_block(lines, number))
            found[-1].blocks.append(Block(label[1], text, number))
        elif found and line and not line.startswith("    "):
            found[-1].prose.append((number, line))
    return found


def written_out(text: str) -> bytes:
    """A program with each line that begins with `{ 9 times }` as often as that says."""
    lines = []
    for line in text.split("\n"):
        times = re.fullmatch(r"\{ (\d+) times \}(.*)", line)
        lines += int(times[1]) * [times[2]] if times else [line]
    return "\n".join(lines).encode()


# ---- programs


def status_of(said: str) -> int:
    """The status of a run that says this."""
    return next((status for pattern, status in STATUS if re.match(pattern, said)), 0)


def case_of(page: Page, blocks: List[Block]) -> Case:
    """The case of a program and what belongs to it."""
    case = Case(page.title, page.place(blocks[0].line), files={"program.pas": written_out(blocks[0].text)})
    told = {block.label: block.text for block in blocks[1:]}
    case.input = told.get("Input", "").encode()
    case.output = told.get("Writes", "").encode()
    case.error = told.get("Says", "").encode()
    case.status = status_of(told.get("Says", ""))
    return case


def programs_of(page: Page) -> List[List[Block]]:
    """Each program of a page, with its input, what it writes and what is said of it."""
    found: List[List[Block]] = []
    for block in page.blocks:
        if block.label in ("Wrong", "Right"):
            found.append([block])
        elif block.label in ("Input", "Writes", "Says") and found:
            found[-1].append(block)
    return found


def faults_of_form(page: Page, blocks: List[Block]) -> List[str]:
    """What is said just of what is wrong, and of no part twice."""
    labels = [block.label for block in blocks]
    wrong = (
        [] if ("Says" in labels) == (labels[0] == "Wrong") else ["what is wrong has `Says:`, what is right has none"]
    )
    return wrong + [f"`{label}:` twice" for label in set(labels) if labels.count(label) > 1]


# ---- sessions


def files_of(page: Page) -> Dict[str, bytes]:
    """The files in the folder in which a page's sessions are run."""
    files = {}
    for block in page.blocks:
        kind, _, name = block.label.partition(" ")
        if kind == "File":
            files[name] = block.text.encode()
        elif kind == "Bytes":
            files[name] = bytes.fromhex(block.text)
    return files


def ran_in(folder: str, command: str) -> str:
    """What a command shows, on no input."""
    how = {"env": {**runs.environment(), "PATH": f"{folder}/bin:{os.environ['PATH']}"}, "timeout": runs.SECONDS}
    how.update(stdin=subprocess.DEVNULL, stdout=subprocess.PIPE, stderr=subprocess.STDOUT)
    return subprocess.run(["sh", "-c", command], cwd=f"{folder}/here", **how).stdout.decode()


def held(page: Page, session: Block, program: str) -> List[str]:
    """Runs a session, and returns how its output differs from what is expected."""
    with tempfile.TemporaryDirectory(prefix="session-") as folder:
        os.mkdir(f"{folder}/bin")
        os.symlink(program, f"{folder}/bin/pascal")
        os.mkdir(f"{folder}/here")
        for name, content in files_of(page).items():
            with open(f"{folder}/here/{name}", "wb") as file:
                file.write(content)
        shown = ""
        for command in re.findall(r"(?m)^\$ (.*)", session.text):
            shown += f"$ {command}\n{ran_in(folder, command)}"
    return [] if shown == session.text else [runs.difference("shown", shown.encode(), session.text.encode())]


# ---- the pages as a whole


def wanted_titles() -> Set[str]:
    """The titles that must exist: of each refusal, warning, error, stop and machine fault in the documents."""
    refusals, language, messages = (text_of(f"docs/{name}.md") for name in ("REFUSALS", "LANGUAGE", "MESSAGES"))
    titles = {f"{number} {name}" for number, name in re.findall(r"(?m)^\| (\d+) \| ([A-Z]\w+) \|", refusals)}
    (first, names), = re.findall(r"(?m)^\| (\d+) to \d+ \| ([\w, ]+) \|", refusals)
    titles |= {f"{number} {name}" for number, name in enumerate(names.split(", "), int(first))}
    warnings = re.findall(r"(?m)^### (\d+) (\w+)$", messages[messages.index("## Warnings") :])
    titles |= {f"{number} {name}" for number, name in warnings}
    errors = re.findall(r"(?m)^\| (\d+) \| ([a-z ]+) \|", language[language.index("## Errors") :])
    titles |= {f"{'Stop' if int(number) > 11 else 'Error'} {number}: {words}" for number, words in errors}
    return titles | {
        f"Machine fault: {fault}" for fault in ("BadWord", "BadAddress", "BadDivisor", "BadJump", "UnknownTrap")
    }


def wanted_statuses() -> Set[str]:
    """The titles of the statuses in docs/REFUSALS.md."""
    refusals = text_of("docs/REFUSALS.md")
    return {
        f"Status {match}" for match in re.findall(r"(?m)^\| (\d) \|", refusals[refusals.index("| Status | Ending |") :])
    }


def all_are_there() -> List[str]:
    """Each refusal, warning, error, stop, status and fault has a page, and no page is of something else."""
    titles = [page.title for page in pages()]
    others = {title for title in titles if re.match(r"Status \d: |Fault: ", title)}
    wrong = [f"no page of {title}" for title in sorted(wanted_titles() - set(titles))]
    wrong += [f"a page of what there isn't: {title}" for title in sorted(set(titles) - wanted_titles() - others)]
    wrong += [f"two pages {title}" for title in sorted(set(titles)) if titles.count(title) > 1]
    statuses = {title.split(":")[0] for title in titles if title.startswith("Status")}
    return wrong + [f"no page of {status}" for status in sorted(wanted_statuses() - statuses)]


def parts_of(page: Page) -> List[str]:
    """What is missing from a page: a program or a session of what is wrong and of what is right, how to fix it, the
    rule."""
    labels = [block.label for block in page.blocks]
    starts = [line.split(":")[0] for _, line in page.prose]
    is_shown = page.title in SHOWN_BY_NOTHING or {"Wrong", "Right"} <= set(labels) or labels.count("Session") > 1
    is_status = page.title.startswith("Status")
    wrong = [] if is_shown or is_status and "Session" in labels else ["nothing shows what is wrong and what is right"]
    wrong += [] if "Mend" in starts or page.title.startswith("Status 0") else ["no line `Mend:`"]
    return wrong + ([] if "Rule" in starts else ["no line `Rule:`"])


def sections_in(text: str) -> Iterator[str]:
    """The sections of the standard that a text names."""
    for found in re.findall(r"(?<![\d.-])(\d\.\d+(?:\.\d+)*)(?![\d-])", text):
        yield found


def is_section(name: str) -> bool:
    """Whether the standard has this section."""
    head = ".".join(name.split(".")[:2])
    return name[len(head) :] in SECTIONS.get(head, [])


def names_of(page: Page) -> List[str]:
    """What a page names that there isn't: refusals, errors, sections and documents; and lines that are too long."""
    titles, wrong = {page.title for page in pages()}, []
    for number, line in page.prose:
        told = re.findall(
            r"\b\d\d? [A-Z][a-z]+[A-Z]\w+|\b\d\d? (?:Unknown|Twice|Limit|Magic|Truncated|Trailing)\b", line
        )
        wrong += [f"line {number}: no page {title}" for title in told if title not in titles]
        wrong += [f"line {number}: no section {section}" for section in sections_in(line) if not is_section(section)]
        files = re.findall(r"\bdocs/\w+\.md\b", line)
        wrong += [f"line {number}: no file {file}" for file in files if not os.path.isfile(f"{TOP}/{file}")]
        wrong += [f"line {number}: more than {WIDTH} signs"] if len(line) > WIDTH else []
    return wrong


# ---- all that is to be tried


def trials_of(page: Page, program: str) -> Iterator[Trial]:
    """The programs and the sessions of a page."""
    for blocks in programs_of(page):
        case, wrong = case_of(page, blocks), faults_of_form(page, blocks)
        name = f"{page.title}: {blocks[0].label.lower()}"
        yield Trial(name, case.place, lambda case=case, wrong=wrong: wrong or runs.run(case, program, False))
    for block in page.blocks:
        if block.label == "Session":
            name = f"{page.title}: session"
            yield Trial(name, page.place(block.line), lambda block=block: held(page, block, program))


def trials(program: str) -> List[Trial]:
    """All that the pages have to try over a program."""
    found = [Trial("each refusal, warning, error, status and fault has a page", PAGES, all_are_there)]
    for page in pages():
        found.append(
            Trial(f"{page.title}: form", page.place(page.line), lambda page=page: parts_of(page) + names_of(page))
        )
        found.extend(trials_of(page, program))
    return found

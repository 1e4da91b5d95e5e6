"""Texts in a page: typing, refusals with their marks, mends, second places, warnings, pages of messages."""

from __future__ import annotations

import json
import os
from typing import Dict

from cases import Case, cases_of

from .browser import Page, Wrong, lacking
from .programs import FAILS, SELECTED, UNDERLINED, UNENDING, VALUE, WRONG

CHECKS = os.path.join(os.path.dirname(os.path.dirname(os.path.realpath(__file__))), "checks.txt")


def a_text_is_typed_and_run(page: Page) -> Wrong:
    """Typed key by key; a new line begins as far in as the one before."""
    page.opens()
    page.clicks("#text")
    page.value("document.getElementById('text').select()")
    page.presses("Backspace")
    page.types("program typed(output);\nbegin\n  writeln('one');\nwriteln('two')\n")
    for _ in range(2):
        page.presses("Backspace")
    page.types("end.")
    wrong = lacking("the text", page.value(VALUE), "begin\n  writeln('one');\n  writeln('two')\nend.")
    wrong += lacking("numbers", page.shows("numbers"), "1\n2\n3\n4\n5")
    page.clicks("#run")
    wrong += lacking("the ending", page.ends(), "The program came to its end")
    page.picture("typed")
    return wrong + lacking("output", page.shows("output"), "one\ntwo\n")


def a_text_is_refused(page: Page) -> Wrong:
    """Its line is marked and told, by the pointer and at the cursor; a click selects it; its mark goes as it is mended."""
    page.opens(answers={})
    page.puts(WRONG)
    page.clicks("#run")
    wrong = lacking("the ending", page.ends(), "The text was refused: line 4: 35 NotAssignable")
    wrong += lacking("marks", page.shows("marks"), "  k := 'a';")
    wrong += lacking("faults", page.shows("faults"), "line 4", "35 NotAssignable", "assignment-compatible")
    page.points("#text", 60, 3.5 * 21)
    wrong += lacking("over the line", page.shows("place"), "line 4: 35 NotAssignable")
    page.points("#text", 60, 1.5 * 21)
    wrong += lacking("over another", page.shows("place"), "line 7, column 1")
    page.clicks("#faults button")
    wrong += lacking("selected", page.value(SELECTED), "  k := 'a';")
    wrong += lacking("at the cursor", page.shows("place"), "line 4: 35 NotAssignable")
    page.picture("refused")
    page.browser.ask("Input.insertText", text="  k := 1;")
    return wrong + ([] if page.shows("marks") == "" else ["the mark stays when its line is mended"])


def a_text_is_refused_by_the_program(page: Page) -> Wrong:
    """Whatever it tells of that; the fault's line leads to it. It can't be gone through or listed either."""
    page.opens()
    page.puts(WRONG)
    wrong = []
    for command in ("#trace", "#list", "#run"):
        page.clicks(command)
        wrong += lacking(command, page.ends(), "The text was refused: line 4: ")
        wrong += [] if page.value("document.getElementById('stepping').hidden") else ["a refused text is gone through"]
    page.clicks("#faults button")
    page.picture("refused by the program")
    return wrong + ([] if page.value(SELECTED) in "  k := 'a';" else ["another line is selected"])


def checks() -> Dict[str, Case]:
    """Texts by their names, with what `check` may answer of them."""
    return {case.name: case for case in cases_of(CHECKS)}


def text_of(case: Case) -> str:
    return case.files["program.pas"].decode()


def checked(page: Page, name: str, **how: object) -> str:
    """Opens the page, runs the text of a case, and returns it when its faults are shown."""
    cases = checks()
    answers = {text_of(case): {"out": case.output.decode(), "status": case.status} for case in cases.values()}
    text = text_of(cases[name])
    page.opens(answers=answers, **how)
    page.puts(text)
    page.clicks("#run")
    page.ends()
    page.has("document.querySelector('#faults li') !== null", 5)
    return text


def a_mend_is_applied(page: Page) -> Wrong:
    """By a click, which can be undone; then the text is checked again. Of another text it can't be applied."""
    text = checked(page, "a semicolon is missing")
    wrong = lacking("the ending", page.shows("ending"), "line 7: writeln cannot stand here: ; is missing before it")
    wrong += lacking("faults", page.shows("faults"), "expected: an operator, end or ;", "the text is then accepted")
    wrong += lacking("marks", str(page.value(UNDERLINED)), "['error writeln']")
    page.picture("a mend")
    page.clicks("#text")
    page.presses("End")
    page.types(" ")
    wrong += [] if page.value("document.querySelector('#faults .mend').disabled") else ["a mend of another text can be clicked"]
    page.presses("Backspace")
    page.clicks("#faults .mend")
    wrong += lacking("the text", page.value(VALUE), text.replace("b := 4", "b := 4;"))
    page.has("document.getElementById('ending').textContent.startsWith('Mended')", 5)
    wrong += lacking("the ending", page.shows("ending"), "Mended")
    page.value("document.execCommand('undo')")
    return wrong + ([] if page.value(VALUE) == text else ["the mend can't be undone"])


def a_mend_of_two_edits(page: Page) -> Wrong:
    """In a text whose letters have several bytes."""
    text = checked(page, "slanted quotes")
    wrong = lacking("marks", str(page.value(UNDERLINED)), "error \u2018")
    page.clicks("#faults .mend")
    return wrong + lacking("the text", page.value(VALUE), text.replace("\u2018", "'").replace("\u2019", "'"))


def second_places_are_shown(page: Page) -> Wrong:
    """Each is marked, told at its line, and led to from the list."""
    checked(page, "a name is misspelt")
    wrong = lacking("marks", str(page.value(UNDERLINED)), "place counter", "error conter")
    page.points("#text", 60, 1.5 * 21)
    wrong += lacking("over the place", page.shows("place"), "line 2: counter is declared here")
    page.picture("a second place")
    page.clicks("#faults p:last-child button")
    return wrong + lacking("selected", page.value(SELECTED), "counter")


def warnings_are_shown(page: Page) -> Wrong:
    checked(page, "a semicolon behind then")
    wrong = lacking("the ending", page.shows("ending"), "The program came to its end")
    wrong += lacking("faults", page.shows("faults"), "line 5 warning: this ; ends the if", "remove ;")
    wrong += lacking("marks", str(page.value(UNDERLINED)), "warning ;", "place if")
    page.picture("a warning")
    return wrong


def a_run_that_does_not_end_is_warned_of(page: Page) -> Wrong:
    cases = checks()["two warnings"]
    page.opens(answers={text_of(cases): {"out": cases.output.decode(), "status": 0}})
    page.puts(text_of(cases))
    page.clicks("#run")
    page.has("document.querySelectorAll('#faults li').length === 2", 5)
    wrong = lacking("while it runs", page.shows("faults"), "nothing in this while changes i", "warning: this line")
    wrong += lacking("the ending", page.shows("ending"), "running")
    page.presses("Escape")
    page.picture("two warnings")
    return wrong + lacking("the ending", page.ends(), "You stopped the run")


def a_message_without_a_place(page: Page) -> Wrong:
    checked(page, "a refusal without a place")
    return lacking("faults", page.shows("faults"), "the compiler ran out of memory")


def a_message_is_explained(page: Page) -> Wrong:
    """By the program's own page, whose programs can be opened; closing it leads back to what opened it."""
    page.opens(answers={})
    page.puts(WRONG)
    page.clicks("#run")
    page.ends()
    page.clicks("#ending button")
    page.has("!document.getElementById('explanation').hidden", 5)
    wrong = lacking("the title", page.shows("explained"), "35 NotAssignable")
    wrong += lacking("the page", page.shows("page"), "Wrong:", "Right:", "Rule: ")
    page.picture("explained")
    page.presses("Escape")
    wrong += [] if page.value("document.activeElement.textContent") == "explain" else ["the focus is elsewhere"]
    page.clicks("#faults li button:last-child")
    page.has("!document.getElementById('explanation').hidden", 5)
    page.clicks("#page button")
    wrong += lacking("the text", page.value(VALUE), "program ")
    wrong += [] if page.value("document.getElementById('explanation').hidden") else ["the panel stays open"]
    page.value("history.back()")
    page.has(f"{VALUE} === {json.dumps(WRONG)}", 5)
    return wrong + lacking("a step back", page.value(VALUE), WRONG)


def an_ending_is_explained(page: Page) -> Wrong:
    """An error of a run by its own page, and a stop that has none by its status."""
    wrong = []
    for text, steps, title in ((FAILS, "1000000", "Error 2: division by zero"), (UNENDING, "1000", "Status 4: step limit")):
        page.opens()
        page.value(f"document.getElementById('steps').value = {steps}")
        page.puts(text)
        page.clicks("#run")
        page.ends()
        page.clicks("#ending button")
        page.has("!document.getElementById('explanation').hidden", 5)
        wrong += lacking("the title", page.shows("explained"), title)
    page.clicks("#leave")
    return wrong + ([] if page.value("document.getElementById('explanation').hidden") else ["the panel stays open"])


def a_mark_goes_with_its_line(page: Page) -> Wrong:
    page.opens(answers={})
    page.puts(WRONG)
    page.clicks("#run")
    page.ends()
    page.value("(field => { field.focus(); field.setSelectionRange(0, 0) })(document.getElementById('text'))")
    page.browser.ask("Input.insertText", text="{ a line more }\n")
    top = page.value("document.querySelector('#marks div').style.top")
    return lacking("its place", top, "* 4)") + lacking("its number", page.shows("numbers"), "7\n85")


TRIALS = (
    a_text_is_typed_and_run,
    a_text_is_refused,
    a_text_is_refused_by_the_program,
    a_mend_is_applied,
    a_mend_of_two_edits,
    second_places_are_shown,
    warnings_are_shown,
    a_run_that_does_not_end_is_warned_of,
    a_message_without_a_place,
    a_message_is_explained,
    an_ending_is_explained,
    a_mark_goes_with_its_line,
)

"""Runs in a page: conversations, errors, runs that are gone through or stopped, limits, listings."""

from __future__ import annotations

import json
import time

from .browser import CONTROL, NARROW, Page, Wrong, lacking
from .programs import (
    ASKS,
    ECHO,
    FAILS,
    FOCUSED,
    FRAMES,
    LISTS,
    LONG,
    SELECTED,
    SQUARED,
    SQUARES,
    TABLES,
    UNDERLINED,
    UNENDING,
    WALK,
)


def conversation(page: Page, behind: str, name: str) -> Wrong:
    page.opens(behind)
    page.puts(ASKS)
    page.presses("Enter", CONTROL)
    wrong = [] if page.asks() else ["it does not ask"]
    wrong += lacking("before the answer", page.shows("output"), "A number: ")
    page.picture(f"{name} asks")
    page.types("12\n")
    wrong += lacking("the ending", page.ends(), "The program came to its end")
    page.picture(f"{name} answered")
    return wrong + lacking("output", page.shows("output"), "A number: 12\nIts square is 144.\n")


def a_conversation_that_waits(page: Page) -> Wrong:
    """The engine lets the run wait for the line."""
    return conversation(page, "", "waits")


def a_conversation_begun_anew(page: Page) -> Wrong:
    """As in an engine that can't let a run wait."""
    return conversation(page, "#waits=no", "anew")


def the_input_ends(page: Page) -> Wrong:
    """By its button, and by a key."""
    wrong = []
    for ends in (lambda: page.clicks("#close"), lambda: page.presses("d", CONTROL)):
        page.opens()
        page.puts(ECHO)
        page.clicks("#run")
        page.asks()
        page.types("four\n")
        page.asks()
        ends()
        wrong += lacking("the ending", page.ends(), "The program came to its end")
        wrong += lacking("output", page.shows("output"), "four\n5\n")
    return wrong


def input_is_given_before(page: Page) -> Wrong:
    page.opens()
    page.puts(ECHO)
    page.clicks("#before")
    page.clicks("#given")
    page.types("one\ntwo\n")
    page.clicks("#run")
    wrong = lacking("the ending", page.ends(), "The program came to its end")
    page.picture("input given before")
    return wrong + lacking("output", page.shows("output"), "8\n")


def an_error_is_told(page: Page) -> Wrong:
    """With the lines of the calls that are open; either leads to its line."""
    page.opens()
    page.puts(FAILS)
    page.clicks("#run")
    wrong = lacking("the ending", page.ends(), "The program ended with an error: line 5: ")
    wrong += lacking("faults", page.shows("faults"), "line 5", "line 9 called from here")
    page.clicks("#faults li:last-child button")
    page.picture("error")
    wrong += lacking("selected", page.value(SELECTED), "  p")
    page.clicks("#ending button:last-child")
    wrong += [] if page.finds(TABLES, "in p, called at line 9: ; in fails: z = 0") else [f"why: {page.shows('explanation')}"]
    wrong += lacking("why", page.shows("explanation"), "Where it ended", "line 5 division by zero")
    page.picture("why")
    page.clicks("#page .place")
    return wrong + lacking("selected", page.value(SELECTED), "div")


def a_run_is_gone_through(page: Page) -> Wrong:
    """Forwards and back by buttons, and to any statement by the slider, with the line, the variables and what was written."""
    page.opens()
    page.puts(SQUARES)
    page.clicks("#trace")
    wrong = lacking("the ending", page.ends(), "The program came to its end")
    wrong += lacking("the first statement", page.shows("where"), "after statement 1 of ", "in squares", "for k := 1 to 5 do")
    for _ in range(3):
        page.clicks("#forward")
    wrong += [] if page.finds(FRAMES, "in squares: k = 2") else [f"variables: {page.value(FRAMES)}"]
    wrong += lacking("the fourth statement", page.shows("where"), "after statement 4 of ", "line 5")
    wrong += lacking("marks", str(page.value(UNDERLINED)), "step writeln(k:3, k * k:5)")
    page.picture("stepping")
    page.steps_to("last")
    written = f"document.getElementById('output').textContent === {SQUARED!r}"
    wrong += [] if page.has(written) else ["not all is written at the end"]
    wrong += [] if page.value("document.getElementById('forward').disabled") else ["it goes further than the end"]
    page.clicks("#back")
    wrong += [] if not page.value("document.getElementById('forward').disabled") else ["it does not go back"]
    page.clicks("#run")
    wrong += lacking("the next run", page.ends(), "The program came to its end")
    return wrong + ([] if page.value("document.getElementById('stepping').hidden") else ["the panel stays open"])


def a_run_that_reads_is_gone_through(page: Page) -> Wrong:
    """It asks as a run does, and its prompt is shown before; what was typed stands where it was read."""
    page.opens()
    page.puts(ASKS)
    page.clicks("#trace")
    wrong = [] if page.asks() else ["it does not ask"]
    wrong += lacking("the prompt", page.shows("output"), "A number: ")
    page.types("7")
    page.presses("Enter")
    wrong += lacking("the ending", page.ends(), "The program came to its end")
    page.clicks("#forward")
    wrong += lacking("what is read", page.shows("where"), "it read '7', end of line")
    wrong += [] if page.finds("document.getElementById('output').textContent", "A number: 7") else ["what was typed is not shown"]
    return wrong + ([] if page.finds(FRAMES, "in asks: n = 7") else [f"variables: {page.value(FRAMES)}"])


def variables_of_each_kind_and_call(page: Page) -> Wrong:
    """Of every type; parameters, those that stand for a variable, and those of calls within calls; what changed stands out."""
    page.opens()
    page.puts(WALK)
    page.clicks("#before")
    page.value("document.getElementById('given').value = '12'")
    page.clicks("#trace")
    wrong = lacking("the ending", page.ends(), "The program came to its end")
    for number, wanted in (
        (1, "n = 0, k = 0, c = red, ch = chr(0), ok = false, s = [], p = (x: 0, y: 0), first = nil, name = '.....'"),
        (5, "in swap, called at line 29: x = 2, y = 2, t = 12; in walk: a = (0, 0, 0, 0), n = 2, k = 2"),
        (7, "in walk: a = (0, 0, 0, 0), n = 2, k = 12"),
        (14, "c = blue, ch = 'z', ok = true, s = [1, 3..5], p = (x: 7, y: 0), first = nil, name = 'Pasca'"),
        (23, "in fact, called at line 22: fact = 0, n = 1, k = 1; in fact, called at line 31: fact = 0, n = 2, k = 2; in walk:"),
        (54, "objects: object 1 = (key: 5, next: nil)"),
    ):
        page.steps_to(number)
        wrong += [] if page.finds(FRAMES, wanted) else [f"statement {number}: {page.value(FRAMES)}"]
        page.picture(f"variables {number}")
    page.steps_to(24)
    page.finds(FRAMES, "fact = 1")
    new = "[...document.querySelectorAll('#frames .changed')].map(row => row.textContent).join()"
    page.steps_to(23)
    page.finds(FRAMES, "fact = 0, n = 1")
    page.clicks("#forward")
    page.finds(FRAMES, "fact = 1")
    wrong += [] if page.value(new) == "fact1" else [f"what stands out is {page.value(new)}"]
    page.steps_to(56)
    wrong += lacking("a repeat", page.shows("where"), "until k <= 2") + lacking("its mark", str(page.value(UNDERLINED)), "step until k <= 2")
    page.steps_to("last")
    page.clicks("#back")
    page.clicks("#forward")
    wrong += [] if page.value(FOCUSED) == "back" else ["the focus is lost at the end"]
    wrong += [] if page.finds("document.getElementById('output').textContent", "d\u00e9j\u00e0: 2  2") else ["letters of two bytes"]
    page.steps_to(3)
    page.presses("Escape")
    wrong += [] if page.value("document.getElementById('stepping').hidden") else ["the panel stays open"]
    wrong += [] if page.value(FOCUSED) == "trace" and page.value(UNDERLINED) == [] else ["it is not left"]
    whole = "a number: d\u00e9j\u00e0: 2  2\n"
    return wrong + ([] if page.has(f"document.getElementById('output').textContent === {json.dumps(whole)}", 5) else ["the whole output"])


def a_long_run_is_gone_through(page: Page) -> Wrong:
    """Its first statements, in time; and those of a run without end, and of one that was stopped."""
    wrong = []
    for text in (LONG, "program on;\nvar k: integer;\nbegin\n  k := 0;\n  while true do k := 1 - k\nend.\n"):
        page.opens()
        page.puts(text)
        page.clicks("#trace")
        wrong += lacking("the ending", page.ends(30), "The first 4000 statements can be gone through")
        page.steps_to("last")
        wrong += lacking("the last one", page.shows("where"), "after statement 4000 of the first 4000: ")
        began = time.monotonic()
        wrong += [] if page.finds(FRAMES, "k = ") else ["no variables"]
        print(f"    its variables in {1000 * (time.monotonic() - began):.0f} ms")
    page.puts("program stopped;\nvar k: integer;\nbegin\n  k := 7;\n  while true do\nend.\n")
    page.clicks("#trace")
    time.sleep(0.5)
    page.presses("Escape")
    wrong += lacking("the ending", page.ends(), "You stopped the run")
    return wrong + ([] if page.finds(FRAMES, "k = 7") else ["a run that was stopped has no statements"])


def a_run_is_gone_through_on_a_telephone(page: Page) -> Wrong:
    """The statement and the variables are in sight together; nothing is wider than the page."""
    page.opens(size=NARROW)
    page.puts(WALK)
    page.clicks("#before")
    page.value("document.getElementById('given').value = '12'")
    page.clicks("#trace")
    page.ends()
    page.has("!document.getElementById('stepping').hidden", 5)
    page.steps_to(5)
    page.finds(FRAMES, "t = 12")
    time.sleep(0.3)
    page.picture("telephone stepping")
    in_sight = "(b => b.top >= 0 && b.bottom <= innerHeight)(document.querySelector({!r}).getBoundingClientRect())"
    wrong = [] if page.value(in_sight.format("#marks u")) else ["the statement is out of sight"]
    wrong += [] if page.value(in_sight.format("#where")) else ["what is told of it is out of sight"]
    wide = page.value("document.documentElement.scrollWidth")
    return wrong + ([] if wide <= NARROW[0] else [f"the page is {wide} wide"])


def why_a_run_stopped(page: Page) -> Wrong:
    """For want of stack, of heap and of steps, and at the end of the input; after a change of the text it is that of the run."""
    deep = "program deep(output);\nprocedure p(k: integer);\nbegin p(k + 1) end;\nbegin p(1) end.\n"
    many = "program many(output);\ntype l = ^l1; l1 = record n: l end;\nvar x: l;\nbegin while true do new(x) end.\n"
    short = "program short(input, output);\nvar n: integer;\nbegin\n  readln(n);\n  readln(n)\nend.\n"
    wrong = []
    for name, text, wanted in (
        ("stack", deep, "line 3 out of stack, 12 calls of p open (296 bytes each); Limits can give it more"),
        ("heap", many, "line 4 out of heap, 4096 bytes taken; Limits can give it more"),
        ("steps", UNENDING, "line 3 stopped after 100000 steps, in the while"),
        ("input", short, "line 5 end of input"),
    ):
        page.opens()
        page.value("document.getElementById('steps').value = 100000")
        page.value("document.getElementById('stack').value = 4096")
        page.value("document.getElementById('heap').value = 4096")
        page.puts(text)
        page.clicks("#run")
        if name == "input":
            page.asks()
            page.types("12\n")
            page.asks()
            page.clicks("#close")
        page.ends()
        page.value("document.getElementById('text').setRangeText('{ more } ', 0, 0)")
        page.clicks("#ending button:last-child")
        wrong += [] if page.finds("document.getElementById('page').textContent", wanted) else [f"{name}: {page.shows('explanation')}"]
        page.picture(f"why {name}")
    return wrong


def a_run_without_end_is_stopped(page: Page) -> Wrong:
    """By its button, and by a key; the page goes on meanwhile."""
    wrong = []
    for stops in (lambda: page.clicks("#stop"), lambda: page.presses("Escape")):
        page.opens()
        page.puts(UNENDING)
        page.clicks("#run")
        time.sleep(0.5)
        wrong += lacking("while it runs", page.shows("ending"), "running")
        page.picture("unending")
        began = time.monotonic()
        stops()
        wrong += lacking("the ending", page.ends(5), "You stopped the run")
        wrong += [] if time.monotonic() - began < 1 else ["it took more than a second to stop"]
        page.puts(SQUARES)
        page.clicks("#run")
        wrong += lacking("the next run", page.ends(), "The program came to its end")
    return wrong


def limits_are_met(page: Page) -> Wrong:
    """Of steps, stack and heap, each as it is given."""
    page.opens()
    page.clicks("fieldset details summary")
    deep = "program deep(output);\nprocedure p;\nbegin p end;\nbegin p end.\n"
    many = "program many(output);\ntype l = ^l1; l1 = record n: l end;\nvar x: l;\nbegin while true do new(x) end.\n"
    wrong = []
    for field, value, text, told in (
        ("steps", "1000", UNENDING, "it had made all its steps"),
        ("stack", "4096", deep, "ran out of room: line 3: out of stack"),
        ("heap", "4096", many, "ran out of room: line 4: out of heap"),
    ):
        page.value(f"document.getElementById({field!r}).select()")
        page.browser.ask("Input.insertText", text=value)
        page.puts(text)
        page.clicks("#run")
        wrong += lacking(field, page.ends(), told)
        if field == "steps":
            page.value("document.getElementById('steps').select()")
            page.browser.ask("Input.insertText", text="1000000000")
    page.picture("limits")
    return wrong


def a_program_is_listed(page: Page) -> Wrong:
    """With the line of the text where an instruction tells one, which leads there."""
    page.opens()
    page.puts(LISTS)
    page.clicks("#list")
    wrong = lacking("the ending", page.ends(), "Listed")
    wrong += lacking("listing", page.shows("output"), "; lists", "000000 ", "line 5   a[k] := 7")
    page.picture("listing")
    page.value("[...document.querySelectorAll('#output button')].find(button => button.textContent === 'line 5').id = 'fifth'")
    page.clicks("#fifth")
    return wrong + lacking("selected", page.value(SELECTED), "a[k] := 7")


def much_is_written(page: Page) -> Wrong:
    """A run that writes without end is broken off."""
    page.opens()
    page.puts("program much(output);\nbegin\n  while true do writeln('and on')\nend.\n")
    page.clicks("#run")
    wrong = lacking("the ending", page.ends(), "Broken off: it wrote more than")
    left = "(field => field.scrollHeight - field.scrollTop - field.clientHeight)(document.getElementById('output'))"
    wrong += [] if page.value(left) < 2 else ["the end is out of sight"]
    page.puts("program much(output);\nbegin\n  while true do write('and on ')\nend.\n")
    began = time.monotonic()
    page.clicks("#run")
    wrong += lacking("the ending", page.ends(), "Broken off: it wrote more than")
    print(f"    in one line: {time.monotonic() - began:.1f} s")
    wrong += [] if page.value("document.getElementById('output').textContent") == ("and on " * 149797)[:1048576] else ["it is not whole"]
    return wrong


def a_deep_text(page: Page) -> Wrong:
    """What is deepest within the limits: run, or told in plain words."""
    page.opens()
    page.puts(f"program deep(output);\nbegin\n  writeln({'(' * 240}1{')' * 240})\nend.\n")
    page.clicks("#run")
    wrong = lacking("240 parentheses", page.ends(), "The program came to its end")
    page.puts(f"program deep(output);\nbegin\n  {'if true then ' * 493}writeln(1)\nend.\n")
    page.clicks("#run")
    told = page.ends()
    print(f"    493 statements within each other: {told}")
    return wrong + ([] if "came to its end" in told or "nested too deeply" in told else [told])


TRIALS = (
    a_conversation_that_waits,
    a_conversation_begun_anew,
    the_input_ends,
    input_is_given_before,
    an_error_is_told,
    a_run_is_gone_through,
    a_run_that_reads_is_gone_through,
    variables_of_each_kind_and_call,
    a_long_run_is_gone_through,
    a_run_is_gone_through_on_a_telephone,
    why_a_run_stopped,
    a_run_without_end_is_stopped,
    limits_are_met,
    a_program_is_listed,
    much_is_written,
    a_deep_text,
)

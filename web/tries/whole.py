"""The page as a whole: examples, its address, its colours, a telephone, the keyboard alone, its times."""

from __future__ import annotations

import json
import time
from typing import List

from .browser import CONTROL, NARROW, Page, Wrong, lacking
from .programs import ASKS, ECHO, FOCUSED, FRAMES, SQUARES, VALUE
from .texts import checked


def examples(page: Page) -> Wrong:
    """Each is run from the list, its questions answered with 1, or is stopped; none is refused."""
    page.opens()
    page.clicks("fieldset details summary")
    page.value("document.getElementById('steps').value = 2000000")
    names = page.value("[...document.getElementById('example').options].slice(1).map(option => option.value)")
    wrong = []
    for name in names:
        page.chooses(name)
        page.clicks("#run")
        for _ in range(20):
            page.has("document.getElementById('stop').disabled || !document.getElementById('answer').hidden")
            if page.value("document.getElementById('stop').disabled"):
                break
            page.types("1\n")
        page.presses("Escape")
        told = page.ends()
        wrong += [f"{name}: {told}"] if "refused" in told or "Broken off" in told else []
    print(f"    {len(names)} examples")
    return wrong


def a_step_back_from_an_example(page: Page) -> Wrong:
    """Leads to the text that stood there before."""
    page.opens()
    page.puts(SQUARES)
    page.chooses("gcd")
    wrong = lacking("the example", page.value(VALUE), "program gcd")
    page.value("history.back()")
    page.has(f"document.getElementById('text').value === {json.dumps(SQUARES)}", 5)
    wrong += lacking("the text before", page.value(VALUE), SQUARES)
    chosen = page.value("document.getElementById('example').value")
    return wrong + ([] if chosen == "" else [f"{chosen} can't be chosen again"])


def the_address_has_the_text(page: Page) -> Wrong:
    """And the input; another that opens it sees both; one that is damaged shows the example."""
    page.opens()
    page.puts(ECHO + "{ \u20ac \u00e4 }\n")
    page.clicks("#before")
    page.clicks("#given")
    page.types("h\u00e9\n")
    page.has("location.hash.includes('input=')")
    time.sleep(0.6)
    behind = page.value("location.hash")
    page.opens(behind)
    wrong = lacking("the text", page.value(VALUE), ECHO + "{ \u20ac \u00e4 }\n")
    wrong += lacking("the input", page.value("document.getElementById('given').value"), "h\u00e9\n")
    page.clicks("#run")
    page.ends()
    wrong += lacking("output", page.shows("output"), "4\n")
    page.clicks("#link")
    page.has("document.getElementById('ending').textContent.includes('link')")
    wrong += lacking("the link", page.shows("ending"), "link")
    page.opens("#text=***")
    wrong += lacking("damaged", page.value(VALUE), "program guess") + lacking("damaged", page.shows("ending"), "no whole text")
    page.opens(behind[:60])
    wrong += lacking("cut short", page.value(VALUE), "program echo") + lacking("cut short", page.shows("ending"), "no whole text")
    page.chooses("gcd")
    return wrong + lacking("another text", page.shows("ending"), "ready")


def a_text_too_long_for_an_address(page: Page) -> Wrong:
    """It runs, and the page says that there is no link; one that is long has one."""
    page.opens()
    line = "{ a line of a text that is longer than what an address can hold }\n"
    page.holds(SQUARES + line * 600)
    page.clicks("#link")
    wrong = [] if page.finds("document.getElementById('ending').textContent", "link") else [page.shows("ending")]
    behind = page.value("location.hash")
    page.opens(behind)
    wrong += lacking("a long one", page.value(VALUE), line * 600)
    page.holds(SQUARES + line * 900)
    page.clicks("#link")
    page.finds("document.getElementById('ending').textContent", "too long")
    wrong += lacking("one that is too long", page.shows("ending"), "The text is too long for a link")
    page.clicks("#run")
    return wrong + lacking("the ending", page.ends(), "The program came to its end")


def a_run_before_the_page_is_ready(page: Page) -> Wrong:
    """What is clicked while the compiler is loaded is done when it is."""
    page.opens("", before="addEventListener('DOMContentLoaded', () => document.getElementById('run').click())")
    return [] if page.asks() else [f"it does not run: {page.shows('ending')}"]


def dark(page: Page) -> Wrong:
    """By the system's wish, by the button, and kept."""
    checked(page, "a name is misspelt", **{"color-scheme": "dark"})
    theme = "document.documentElement.dataset.theme"
    wrong = lacking("the system's wish", page.value(theme), "dark")
    page.points("#text", 60, 6.5 * 21)
    page.picture("dark")
    page.clicks("#theme")
    wrong += lacking("the button", page.value(theme), "light")
    page.opens(**{"color-scheme": "dark"})
    wrong += lacking("kept", page.value(theme), "light")
    page.value("localStorage.clear()")
    return wrong


def a_telephone(page: Page) -> Wrong:
    """Nothing is wider than the page; a run comes into sight."""
    page.opens(size=NARROW)
    page.puts(ASKS)
    page.picture("telephone")
    wide = page.value("document.documentElement.scrollWidth")
    wrong = [] if wide <= NARROW[0] else [f"the page is {wide} wide"]
    page.clicks("#run")
    page.asks()
    page.types("9\n")
    wrong += lacking("the ending", page.ends(), "The program came to its end")
    page.picture("telephone run")
    in_sight = "(b => b.top >= 0 && b.bottom <= innerHeight)(document.getElementById('ending').getBoundingClientRect())"
    wrong += [] if page.value(in_sight) else ["the ending is out of sight"]
    heights = page.value("[...document.querySelectorAll('nav button')].map(button => button.getBoundingClientRect().height)")
    small = sum(height < 40 for height in heights)
    wrong += [] if not small else [f"{small} buttons are too small for a finger"]
    page.value("scrollTo(0, 9999)")
    bottom = page.value("document.querySelector('header').getBoundingClientRect().bottom")
    return wrong + ([] if bottom <= 102 else [f"the commands cover {bottom} of the screen"])


def a_mend_on_a_telephone(page: Page) -> Wrong:
    """All of a message is in sight, or can be scrolled to; nothing is wider than the page."""
    text = checked(page, "a name is misspelt", size=NARROW)
    page.picture("telephone mend")
    wide = "document.documentElement.scrollWidth"
    wrong = [] if page.value(wide) <= NARROW[0] else [f"the page is {page.value(wide)} wide"]
    page.clicks("#ending button")
    page.has("!document.getElementById('explanation').hidden", 5)
    page.picture("telephone explained")
    wrong += [] if page.value(wide) <= NARROW[0] else [f"the page is {page.value(wide)} wide, with a page of explain"]
    page.clicks("#leave")
    page.clicks("#faults .mend")
    return wrong + lacking("the text", page.value(VALUE), text.replace("conter", "counter"))


def the_keyboard_alone(page: Page) -> Wrong:
    """Tab goes through all controls and is held nowhere; the focus shows; a text is run and gone through."""
    page.opens()
    seen: List[str] = []
    unseen: List[str] = []
    for _ in range(26):
        page.presses("Tab")
        seen.append(page.value("document.activeElement.id || document.activeElement.tagName"))
        if page.value("getComputedStyle(document.activeElement).outlineStyle") == "none" and seen[-1] not in ("HTML", "BODY"):
            unseen.append(seen[-1])
    wanted = ["example", "run", "trace", "list", "link", "theme", "text", "asked", "SUMMARY", "output", "SUMMARY"]
    at = [seen.index(name) if name in seen else -1 for name in wanted[:-1]]
    wrong = [] if -1 not in at and at == sorted(at) else [f"the order is {seen}"]
    wrong += [f"the focus does not show on {name}" for name in unseen]
    page.puts(SQUARES)
    page.presses("Enter", CONTROL)
    wrong += lacking("Ctrl and Enter", page.ends(), "The program came to its end")
    page.value("document.getElementById('trace').focus()")
    page.presses("Enter")
    page.ends()
    wrong += [] if page.has(f"{FOCUSED} === 'forward'", 5) else ["the focus is not on Forward"]
    for key, wanted in (("Enter", "statement 2 of "), ("Tab", "statement 2 of "), ("ArrowRight", "statement 3 of ")):
        page.presses(key)
        wrong += lacking(key, page.shows("where"), wanted)
    page.presses("Tab")
    page.presses("Enter")
    return wrong + ([] if page.value(FOCUSED) == "trace" else ["Close leads nowhere"])


def names_for_a_screen_reader(page: Page) -> Wrong:
    """Each control has a name, and each table and row of variables; what comes of a run is told as it comes."""
    page.opens()
    page.puts(SQUARES)
    page.clicks("#trace")
    page.ends()
    page.finds(FRAMES, "k = 1")
    nodes = page.browser.ask("Accessibility.getFullAXTree")["nodes"]
    seen = [node for node in nodes if not node.get("ignored")]
    told = [(node.get("role", {}).get("value"), node.get("name", {}).get("value", "")) for node in seen]
    controls = ("button", "textbox", "combobox", "radio", "spinbutton", "slider", "log", "region", "table")
    wrong = [f"a {role} has no name" for role, name in told if role in controls and not name]
    wanted = [("textbox", "Text of the program"), ("log", "Output"), ("button", "Run"), ("combobox", "Example")]
    wanted += [("slider", "Statement of the run"), ("button", "Forward"), ("table", "in squares"), ("rowheader", "k")]
    for role, name in wanted:
        wrong += [] if (role, name) in told else [f"there is no {role} {name}"]
    return wrong + ([] if "status" in [role for role, _ in told] else ["the ending is no status"])


def all_stays_here(page: Page) -> Wrong:
    """The page asks for nothing but itself, and may not; it says what is proved."""
    page.browser.heard.clear()
    page.opens()
    page.clicks("#run")
    page.asks()
    page.presses("Escape")
    asked = [event["request"]["url"] for event in page.told("Network.requestWillBeSent")]
    outside = [address for address in asked if not address.startswith(("file:", "data:", "blob:", "about:"))]
    wrong = [f"it asked for {address}" for address in outside]
    refused = page.value("fetch('https://example.invalid/').then(() => 'fetched', answer => String(answer))")
    refusals = [message for message in page.browser.heard if "Content Security Policy" in json.dumps(message)]
    wrong += [] if "TypeError" in refused and refusals else [f"its rules let it ask: {refused}"]
    page.clicks("footer summary")
    page.picture("what is proved")
    foot = page.value("document.querySelector('footer').textContent")
    return wrong + lacking("the foot", foot, "Proved:", "Not proved:", "docs/PAGE.md")


def times(page: Page) -> Wrong:
    """How soon it is ready, a student's program has run, and a key is taken in a long text; on a slow processor too."""
    wrong = []
    for rate in (1, 4):
        page.browser.ask("Emulation.setCPUThrottlingRate", rate=rate)
        began = time.monotonic()
        page.opens()
        ready = time.monotonic() - began
        page.puts(SQUARES)
        page.clicks("#run")
        ended = page.ends()
        took = page.value("""new Promise(go => { const at = performance.now(); document.getElementById('run').click();
            const hasEnded = () => document.getElementById('stop').disabled;
            const look = () => hasEnded() ? go(performance.now() - at) : setTimeout(look, 1); look() })""")
        page.holds("".join(f"{{ line {number} }}\n" for number in range(1000)))
        key = page.value("""(() => { const field = document.getElementById('text'); const at = performance.now();
            field.setRangeText('x', 9, 9); field.dispatchEvent(new Event('input')); return performance.now() - at })()""")
        told = f"ready in {ready:.2f} s, a run {took:.0f} ms ({ended}), a key {key:.1f} ms"
        print(f"    a processor {rate} times as slow: {told}")
        wrong += [] if ready < 2 and took < 200 * rate and key < 50 * rate else ["too slow"]
    page.browser.ask("Emulation.setCPUThrottlingRate", rate=1)
    return wrong


def nothing_is_complained_of(page: Page) -> Wrong:
    """No script has failed in all that was tried."""
    failures = [event["exceptionDetails"] for event in page.told("Runtime.exceptionThrown")]
    return [failure.get("exception", {}).get("description", failure["text"]) for failure in failures]


TRIALS = (
    examples,
    a_step_back_from_an_example,
    the_address_has_the_text,
    a_text_too_long_for_an_address,
    a_run_before_the_page_is_ready,
    dark,
    a_telephone,
    a_mend_on_a_telephone,
    the_keyboard_alone,
    names_for_a_screen_reader,
    all_stays_here,
    times,
    nothing_is_complained_of,
)

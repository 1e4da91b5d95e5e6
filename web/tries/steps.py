"""Steps of a run that is gone through: nothing is shown that isn't so behind the statement."""

from __future__ import annotations

from typing import List

from .browser import Page, Wrong, lacking
from .programs import BUBBLE, CHANGED, FRAMES, LINKED, SQUARES, UNDERLINED, WIDE_ARRAY

# has answers of `why` wait until they are let go
HOLDS = """(() => {
    const held = [];
    window.letGo = () => { window.isHeld = false; held.splice(0).forEach(go => go()) };
    window.Worker = class extends Worker {
        postMessage(message) {
            const go = () => super.postMessage(message);
            if (window.isHeld && message.job && message.job.words[0] === 'why') held.push(go);
            else go();
        }
    };
})();"""


def goes_through(page: Page, text: str, before: str = "") -> None:
    page.opens(before=before)
    page.puts(text)
    page.clicks("#trace")
    page.ends()
    page.has("!document.getElementById('stepping').hidden", 20)


def shown_at(page: Page, number: int, frames: str, changed: List[str]) -> Wrong:
    """What of a statement is not as it must be, once it is gone to."""
    page.steps_to(number)
    return now_shown(page, f"statement {number}", frames, changed)


def now_shown(page: Page, what: str, frames: str, changed: List[str]) -> Wrong:
    """What is not shown in time: variables, and the parts that stand out."""
    wanted = f"JSON.stringify({CHANGED}) === JSON.stringify({changed!r})"
    if page.has(f"({FRAMES}).includes({frames!r}) && {wanted}", 20):
        return []
    return [f"{what}: {page.value(FRAMES)}; changed {page.value(CHANGED)}"]


def objects_keep_their_numbers(page: Page) -> Wrong:
    """Each has that of its `new` in all steps; an assignment changes what it assigns, and what stands for that."""
    goes_through(page, LINKED)
    wrong = shown_at(page, 12, "place = object 2, made = object 2; in linked: first = object 2", ["placeobject 2", "firstobject 2"])
    objects = "objects: object 1 = (key: 7, next: nil), object 2 = (key: 3, next: object 1)"
    wrong += lacking("objects", page.value(FRAMES), objects)
    page.picture("objects")
    page.clicks("#back")
    wrong += now_shown(page, "Back", "place = object 1, made = object 2; in linked: first = object 1", ["object 1"])
    page.steps_to("last")
    wrong += now_shown(page, "the last", "in linked: first = object 2, k = 3", ["k3"])
    return wrong + lacking("objects", page.value(FRAMES), "object 1 = (key: 7, next: object 3)", "object 3 = (key: 10, next: nil)")


def arrays_are_shown_whole(page: Page) -> Wrong:
    """As cells with their indices, of which the changed one stands out."""
    goes_through(page, BUBBLE)
    page.steps_to(16)
    page.finds(FRAMES, "a = (10, 9, 8, 7, 6, 5, 4, 3)")
    indices = page.value("[...document.querySelectorAll('.cells i')].map(index => index.textContent).join()")
    wrong = lacking("indices", indices, "3,4,5,6,7,8,9,10")
    wrong += shown_at(page, 21, "a = (19, 9, 8, 7, 6, 5, 4, 3)", ["3 19"])
    wrong += shown_at(page, 22, "a = (19, 10, 8, 7, 6, 5, 4, 3)", ["4 10"])
    page.picture("cells")
    return wrong


def a_step_is_compared_with_the_one_before(page: Page) -> Wrong:
    """After a jump, and back too."""
    goes_through(page, BUBBLE)
    wrong = shown_at(page, 22, "a = (19, 10, 8, ", ["4 10"])
    page.clicks("#back")
    wrong += now_shown(page, "Back", "a = (19, 9, 8, ", ["3 19"])
    wrong += shown_at(page, 2, "a = (10, 0, 0, ", ["3 10"])
    page.clicks("#back")
    return wrong + now_shown(page, "the first", "k = 3, n = 0", ["k3"])


def nothing_stale_is_shown(page: Page) -> Wrong:
    """While the variables of a step are found nothing stands there, of another step or of another program."""
    goes_through(page, BUBBLE, HOLDS)
    page.finds(FRAMES, "k = 3")
    page.value("window.isHeld = true")
    page.steps_to("last")
    wrong = [] if page.value(FRAMES) == "" else [f"of another step: {page.value(FRAMES)}"]
    page.value("window.letGo()")
    wrong += [] if page.finds(FRAMES, "a = (3, 4, 5, 6, 7, 8, 9, 10)") else ["the variables do not come"]
    page.puts(SQUARES)
    page.value("window.isHeld = true")
    page.clicks("#trace")
    page.has("document.getElementById('where').textContent.includes('in squares')", 20)
    wrong += [] if page.value(FRAMES) == "" else [f"of another program: {page.value(FRAMES)}"]
    page.value("window.letGo()")
    return wrong + ([] if page.finds(FRAMES, "in squares: k = 1") else ["the other variables do not come"])


def the_mark_of_a_step_goes_with_an_edit(page: Page) -> Wrong:
    """And comes again where the edit is undone."""
    goes_through(page, SQUARES)
    page.clicks("#forward")
    wrong = lacking("marks", str(page.value(UNDERLINED)), "step writeln(k:3, k * k:5)")
    page.value("(field => { field.focus(); field.setSelectionRange(8, 8) })(document.getElementById('text'))")
    page.types("x")
    wrong += [] if page.value(UNDERLINED) == [] else [f"after an edit: {page.value(UNDERLINED)}"]
    wrong += lacking("what is told", page.shows("where"), "the text was changed since")
    page.clicks("#forward")
    wrong += [] if page.value(UNDERLINED) == [] else [f"a step later: {page.value(UNDERLINED)}"]
    page.value("document.getElementById('text').focus()")
    page.presses("Backspace")
    return wrong + lacking("marks after it", str(page.value(UNDERLINED)), "step for k := 1 to 5 do")


def a_long_array_is_a_text(page: Page) -> Wrong:
    """Of which what changed stands out."""
    goes_through(page, WIDE_ARRAY)
    wrong = shown_at(page, 2, "a = (0, 0, 0, 0, 0, 0, 5, 0", ["6"])
    return wrong + ([] if page.value("document.querySelector('.cells') === null") else ["it is cells"])


def a_trace_that_is_cut_is_told(page: Page) -> Wrong:
    """Where the program had no memory for more of it."""
    cuts = """window.Worker = class extends Worker {
        set onmessage(hears) {
            super.onmessage = (event) => {
                const { error, ended } = event.data;
                const cut = new TextEncoder().encode('{"cut":"out of memory"}\\n');
                if (ended && this.isTrace) hears({ data: { error: cut } });
                hears(event);
            };
        }
        postMessage(message) {
            this.isTrace = message.job && message.job.words[0] === 'trace';
            super.postMessage(message);
        }
    };"""
    goes_through(page, SQUARES, cuts)
    page.steps_to("last")
    return lacking("the last step", page.shows("where"), "after statement 11 of 11: ", "the trace ends here: out of memory")


TRIALS = (
    objects_keep_their_numbers,
    arrays_are_shown_whole,
    a_step_is_compared_with_the_one_before,
    nothing_stale_is_shown,
    the_mark_of_a_step_goes_with_an_edit,
    a_long_array_is_a_text,
    a_trace_that_is_cut_is_told,
)

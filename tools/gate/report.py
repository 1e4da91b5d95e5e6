"""What a run prints: a line for each crate as it ends, and at the end where the processor time went."""

import json
import re
import time
from typing import Any, Dict, List

import listed


def seconds(usage: Any) -> float:
    """The processor seconds of a usage."""
    return usage.ru_utime + usage.ru_stime


def of_edits(how: List[str], spent: str) -> str:
    """What a line says of edits none of which has failed, by how that is known of each."""
    tried, stand = how.count(listed.TRIED), how.count(listed.STANDS)
    told = [f"{len(how) - stand} edits refused ({f'{tried} tried, the rest kept) in {spent}' if tried else 'kept)'}"]
    return ", ".join([*(told if len(how) > stand else []), *([f"{stand} edits stand by the list"] if stand else [])])


class Report:
    """Prints what a run does, and adds up what it takes."""

    def __init__(self, tree: str) -> None:
        self.tree, self.began, self.took, self.most = tree, time.time(), {}, {}

    def say(self, text: str) -> None:
        """Prints a line with the time since the run began."""
        print(f"{time.time() - self.began:6.0f} s  {text}", flush=True)

    def begin(self, tasks: List[Any], places: int) -> None:
        """Prints how much there is to do."""
        self.say(f"{len(tasks)} proofs, tests and sets of edits to look at, {places} side by side")

    def facts(self, crate: str, ending: str = "") -> Dict[str, Any]:
        """What the run has noted of a crate's proof."""
        try:
            with open(f"{self.tree}/crates/{crate}/out/facts.json{ending}", encoding="utf-8") as file:
                return json.load(file)
        except OSError:
            return {}

    def end(self, task: Any, given: Any, said: str, status: int, usage: Any, left: int) -> None:
        """Prints how a task ended, and what it wrote if it failed."""
        part = "edits" if task.is_edits else "proof"
        self.took[task.name, part] = self.took.get((task.name, part), 0) + seconds(usage)
        self.most[task.name] = max(self.most.get(task.name, 0), usage.ru_maxrss)
        tries = [trial for told in given.values() for trial in told] if task.is_edits and given else []
        is_well = not status and bool(given) and all(trial[0] for trial in tries)
        for match in re.findall("(?m)^gate: .*", said if is_well else ""):
            self.say(f"{task.name}: {match[6:]}")
        spent = f"{time.time() - task.began:.0f} s, {seconds(usage):.0f} of a processor, {usage.ru_maxrss // 1024} MB"
        if not is_well:
            print(said, end="" if said.endswith("\n") else "\n")
            words = "FAILED"
        elif task.is_edits:
            words = of_edits([trial.how for trial in tries], spent)
        else:
            facts = self.facts(task.name, ".tests" if task.part == "tests" else "")
            what = "its tests are " if task.part == "tests" else ""
            words = f"{what}kept" if facts.get("kept") else f"{what}proved in {spent}"
        self.say(f"{task.name}: {words}; {left} left")

    def spent(self, part: str) -> float:
        """The processor seconds of all proofs, or of all edits."""
        return sum(took for (_, taken_by), took in self.took.items() if taken_by == part)

    def table(self, processors: int) -> None:
        """Processor seconds by crate, proof and edits apart, most expensive first."""
        names = {name for name, _ in self.took}
        of = lambda name, part: self.took.get((name, part), 0)
        print(f"\n{'processor seconds':24} {'proof':>7} {'edits':>7} {'MB':>6}")
        for name in sorted(names, key=lambda name: -of(name, "proof") - of(name, "edits")):
            print(f"{name:24} {of(name, 'proof'):7.0f} {of(name, 'edits'):7.0f} {self.most[name] // 1024:6}")
        print(f"{'all':24} {self.spent('proof'):7.0f} {self.spent('edits'):7.0f}")
        print(f"It took {(time.time() - self.began) / 60:.0f} minutes on {processors} processors.")

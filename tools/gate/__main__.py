"""Checks everything that must hold of this repository; docs/GATE.md says what is done, kept and trusted."""

import argparse
import os
import sys
import tempfile
from typing import Any, Dict, TextIO, Tuple

import edits
import ends
import kit
import listed
import page
import places
import report
import room
import store
import verdicts

TOP = os.path.dirname(os.path.dirname(os.path.dirname(os.path.realpath(__file__))))


class Tee:
    """Standard output, with its last line known."""

    def __init__(self, out: TextIO) -> None:
        self.out, self.said = out, ""

    def write(self, text: str) -> int:
        """Writes a text, and remembers the last line."""
        self.said = (self.said + text)[-200:]
        return self.out.write(text)

    def __getattr__(self, name: str) -> Any:
        return getattr(self.out, name)


def replace_parts(folder: str, progress: report.Report, given: argparse.Namespace) -> None:
    """Puts the gate's places, verdicts and edits into the kit's `rt ci`."""
    rt, places_of_run = kit.rt(), places.Places(folder, progress)

    def run(table: Dict[Any, Any]) -> Dict[Any, Any]:
        """Chooses the edits to try, and runs the tasks of a table."""
        listed.choose(f"{folder}/tree", given.edits, given.release)
        return places_of_run.run(table)

    verdicts.replace_ci()
    verdicts.make_stamps_once()
    if not kit.keeps():
        rt.in_lanes = lambda table: run(edits.grouped(table))
        return
    rt.in_lanes = run
    rt.add_edits, rt.Kept, rt.say = edits.add_all, kit.NothingKept, kit.say_less(rt.say)
    rt.sweep()


def prove(folder: str, progress: report.Report, given: argparse.Namespace) -> Tuple[int, int]:
    """Does what `rt ci` does, with the gate's places, verdicts and edits, and returns how much passed and failed."""
    if kit.lacking():
        print(f"gate: the rt of this kit lacks {', '.join(kit.lacking())}, so its rt ci runs as it is", flush=True)
        return ends.run_plain(f"{folder}/tree")
    replace_parts(folder, progress, given)
    os.chdir(f"{folder}/tree")
    sys.stdout = Tee(sys.__stdout__)
    try:
        with tempfile.TemporaryDirectory(prefix="aside-", dir=folder) as aside:
            status = kit.rt().ci_over(aside, True) if kit.keeps() else kit.rt().ci_from_nothing(aside)
        passed, failed = ends.count_in(sys.stdout.said)
    finally:
        sys.stdout = sys.__stdout__
        os.chdir(TOP)
    # (`rt ci` counts what stands by the list)
    return passed - listed.choice.count(listed.STANDS), failed or int(bool(status))


def release(tree: str) -> None:
    """Writes the released program and the list of edits anew."""
    ends.release(tree, TOP)
    ends.release(tree, tree)
    if listed.choice.sums:
        listed.write(f"{TOP}/{listed.NAME}", listed.choice.new_rows())


def look(folder: str, given: argparse.Namespace) -> Tuple[int, int]:
    """Runs the whole gate in a room and returns how much passed and failed."""
    tree = f"{folder}/tree"
    progress = report.Report(tree)
    passed, failed = prove(folder, progress, given)
    for more in (ends.run_cases(tree), ends.run_growths(tree)):
        passed, failed = passed + more[0], failed + more[1]
    ends.hand_out(tree, TOP)
    releases = given.release and not failed
    if releases:
        release(tree)
    more = page.look(tree, (TOP, tree) if releases else ())
    passed, failed = passed + more[0], failed + more[1]
    faults = [ends.look_at_release(tree), ends.look_at_pages(tree)]
    for why in filter(None, faults):
        print(f"FAILED: {why}")
    progress.table(kit.rt().processors())
    if listed.choice.sums:
        listed.choice.tell(progress.spent("edits"))
    return passed + faults.count(None), failed + len(faults) - faults.count(None)


def print_which(choice: listed.Choice) -> int:
    """Prints which edits a run would try."""
    for edit in choice.left():
        print("/".join(edit))
    print(f"{len(choice.left())} of {len(choice.sums)} edits would be tried")
    return 0


def main() -> int:
    """Reads the words of the command line and runs the gate."""
    words = argparse.ArgumentParser(
        prog="./gate",
        description="Proves what this machine has not proved yet, tries its edits, runs all tests, programs and cases.",
    )
    words.add_argument("--from-nothing", action="store_true", help="take nothing from the store")
    words.add_argument("--edits", action="store_true", help="try all edits, whatever released/edits has")
    words.add_argument(
        "--release",
        action="store_true",
        help="rewrite released/pascal, released/edits and the page if everything else passes",
    )
    words.add_argument("--which", action="store_true", help="print which edits would be tried, and do nothing else")
    given = words.parse_args()
    if given.which:
        return print_which(listed.choose(TOP, given.edits, given.release))
    verdicts.store = store.Store.open(store.place(), reads=not given.from_nothing)
    with room.opened(TOP, verdicts.store.at) as folder:
        passed, failed = look(folder, given)
    verdicts.store.tidy()
    print(f"{passed} passed, {failed} failed")
    return 1 if failed or not passed else 0


if __name__ == "__main__":
    sys.exit(main())

"""What follows the proofs: the end-to-end cases over the programs that were built, the released program, and the
pages."""

import filecmp
import os
import re
import shutil
import subprocess
from typing import Dict, Optional, Tuple

import kit

# what tests/ has cases for, by the launchers that run it
LAUNCHERS = ("pascal", "tools/pascal_reference", "tools/pascal_slots")
PROGRAMS = ("pascal", "pascal_reference")


def count_in(text: str) -> Tuple[int, int]:
    """The numbers of the last line, `N passed, M failed`."""
    found = re.search(r"(?m)^(\d+) passed, (\d+) failed\s*\Z", text)
    return (int(found[1]), int(found[2])) if found else (0, 0)


def run_plain(tree: str) -> Tuple[int, int]:
    """Runs the kit's own `rt ci` in a tree, and returns how much passed and failed."""
    told = {"stdout": subprocess.PIPE, "stderr": subprocess.STDOUT, "text": True, "errors": "replace"}
    with subprocess.Popen(["rt", "ci"], cwd=tree, stdin=subprocess.DEVNULL, **told) as ran:
        said = ""
        for line in ran.stdout:
            print(line, end="", flush=True)
            said = line
    passed, failed = count_in(said)
    return passed, failed or int(bool(ran.returncode))


def run_cases_over(tree: str, what: str, program: str, env: Dict[str, str]) -> Tuple[int, int]:
    """Runs all cases that there are for a program over it. A run that ends with a bad status, or has no case, is a
    failure."""
    words = [f"{tree}/test", "--program", program]
    ran = subprocess.run(
        words, env={**os.environ, **env}, stdout=subprocess.PIPE, stderr=subprocess.STDOUT, text=True, errors="replace"
    )
    well, bad = count_in(ran.stdout)
    if ran.returncode and not bad or not well + bad:
        bad = bad or 1
    if bad:
        print(ran.stdout, end="")
    print(f"tests over {what}: {well} passed, {bad} failed", flush=True)
    return well, bad


def run_cases(tree: str) -> Tuple[int, int]:
    """Runs the cases over each program of the run."""
    told = [
        run_cases_over(tree, launcher, f"{tree}/{launcher}", {"PASCAL_BUILT": f"{tree}/crates"})
        for launcher in LAUNCHERS
    ]
    return sum(well for well, _ in told), sum(bad for _, bad in told)


def run_growths(tree: str) -> Tuple[int, int]:
    """Refuses each growth of the built program's memory in turn. Where that tries nothing, it is a failure."""
    words = [f"{tree}/tests/growths", "--program", f"{tree}/crates/pascal/out/pascal"]
    ran = subprocess.run(words, stdout=subprocess.PIPE, stderr=subprocess.STDOUT, text=True, errors="replace")
    well, bad = count_in(ran.stdout)
    bad = bad or int(bool(ran.returncode) or not well)
    if bad:
        print(ran.stdout, end="")
    print(f"tests/growths: {well} passed, {bad} failed", flush=True)
    return well, bad


def look_at_pages(tree: str) -> Optional[str]:
    """What is not true in the pages of a tree, as far as a program can check."""
    words = [f"{tree}/tools/pages", "--program", f"{tree}/crates/pascal/out/pascal"]
    ran = subprocess.run(words, stdout=subprocess.PIPE, stderr=subprocess.STDOUT, text=True, errors="replace")
    return ran.stdout.strip() or "tools/pages failed" if ran.returncode else None


def sum_of_sources(tree: str, name: str) -> str:
    """The sum of the sources of a program."""
    ran = subprocess.run([f"{tree}/tools/sources_sum", name], capture_output=True, text=True)
    return ran.stdout.strip() if ran.returncode == 0 else None


def line_of(path: str) -> str:
    """The first line of a file, or nothing if it can't be read."""
    try:
        with open(path, encoding="utf-8") as file:
            return file.readline().strip()
    except OSError:
        return ""


def differs_from_release(tree: str, kept: str) -> Optional[str]:
    """Why the released program is not what this run has built. Kits differ in the bytes that they build, so if another
    kit built it, it must pass the cases."""
    made, kit_of_release = f"{tree}/crates/pascal/out/pascal", line_of(f"{kept}.kit")
    if not os.path.isfile(made):
        return "there is no program to compare the released one with"
    if filecmp.cmp(made, kept, shallow=False):
        return None
    if kit_of_release == kit.name():
        return "the released program is not, byte for byte, what was built of the same sources"
    print(
        f"the released program was built by {kit_of_release}, and by {kit.name()} it has other bytes: the cases are "
        "run over it",
        flush=True,
    )
    _, bad = run_cases_over(tree, "the released program", kept, {})
    return "the released program does not do what the cases want" if bad else None


def names_another_kit(kept: str) -> Optional[str]:
    """Whether the released program says that another kit built it than the one that did, which its certificates would
    repeat."""
    built_by = line_of(f"{kept}.kit").partition(" ")[0]
    said = subprocess.run([kept, "--version"], capture_output=True, text=True, errors="replace").stdout
    if all(line == f"kit {built_by}" for line in said.split("\n") if line.startswith("kit ")):
        return None
    return f"the released program was built by {built_by}, and crates/pascal_cli/src/version.rt names another kit"


def look_at_release(tree: str) -> Optional[str]:
    """Whether the released program is the one that this run has built, from sources of the sum that is kept with it,
    and the launcher runs it."""
    kept = f"{tree}/released/pascal"
    if not os.path.isfile(kept):
        return "there is no released program: `./gate --release` writes it"
    if line_of(f"{kept}.sum") != sum_of_sources(tree, "pascal"):
        return "the released program is of other sources: `./gate --release` writes it anew"
    why = differs_from_release(tree, kept) or names_another_kit(kept)
    if why:
        return why
    env = {"PATH": "/usr/bin:/bin", "HOME": "/nowhere"}
    ran = subprocess.run(
        [f"{tree}/pascal", "go", f"{tree}/examples/hello.pas"], env=env, capture_output=True, text=True
    )
    if (ran.returncode, ran.stdout) != (0, "hello\n"):
        return f"the launcher did not run the released program: {ran.stderr[-300:]}"
    return None


def write_sums(tree: str, name: str, program: str) -> None:
    """Writes the sums by which the launcher recognises a program next to it: that of the sources, and its own."""
    with open(f"{program}.sum", "w", encoding="utf-8") as file:
        file.write(f"{sum_of_sources(tree, name)}\n{kit.file_sum(program)}\n")


def release(tree: str, top: str) -> None:
    """Copies the program that was built to released/."""
    os.makedirs(f"{top}/released", exist_ok=True)
    shutil.copy2(f"{tree}/crates/pascal/out/pascal", f"{top}/released/pascal")
    write_sums(tree, "pascal", f"{top}/released/pascal")
    with open(f"{top}/released/pascal.kit", "w", encoding="utf-8") as file:
        file.write(f"{kit.name()}\n")


def hand_out(tree: str, top: str) -> None:
    """Gives the tree the programs that were built, for its launchers."""
    for name in PROGRAMS:
        if os.path.isfile(f"{tree}/crates/{name}/out/{name}"):
            os.makedirs(f"{top}/crates/{name}/out", exist_ok=True)
            shutil.copy2(f"{tree}/crates/{name}/out/{name}", f"{top}/crates/{name}/out/{name}.new")
            os.replace(f"{top}/crates/{name}/out/{name}.new", f"{top}/crates/{name}/out/{name}")
            write_sums(tree, name, f"{top}/crates/{name}/out/{name}")

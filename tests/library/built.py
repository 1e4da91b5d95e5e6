"""The program that the launcher runs, for what calls it often: the launcher makes a sum of the sources at each call."""

from __future__ import annotations

import os
import subprocess
import sys

TOP = os.path.dirname(os.path.dirname(os.path.dirname(os.path.abspath(__file__))))


def current_program() -> str:
    """The launcher builds it if necessary. As with the launcher, PASCAL_BUILT=FOLDER uses FOLDER/pascal/out/pascal
    without building it."""
    if os.environ.get("PASCAL_BUILT"):
        return f"{os.environ['PASCAL_BUILT']}/pascal/out/pascal"
    subprocess.run([f"{TOP}/pascal", "--help"], stdout=subprocess.DEVNULL, check=True)
    wanted = subprocess.run([f"{TOP}/tools/sources_sum", "pascal"], stdout=subprocess.PIPE, check=True).stdout
    for path in (f"{TOP}/released/pascal", f"{TOP}/crates/pascal/out/pascal"):
        if os.path.exists(f"{path}.sum") and open(f"{path}.sum", "rb").readline() == wanted:
            return path
    sys.exit("the launcher runs no program of these sources")

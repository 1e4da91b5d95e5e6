"""Texts in which some numbers are replaced by others, so that many of their runs end with an error."""

from __future__ import annotations

import re
from random import Random

# what a number may become
NUMBERS = [0, 0, 1, 2, 3, 7, 10, 100, 255, 256, 1000, 32768, 70000, 2147483647]


def changed(draw: Random, text: str, most: int = 3) -> str:
    """A text in which up to so many numbers are replaced. Those in strings and comments don't matter, and may change
    too."""
    places = list(re.finditer(r"(?<![\w.])\d+(?!\w)", text))
    for found in sorted(draw.sample(places, min(len(places), draw.randint(1, most))), key=re.Match.start, reverse=True):
        text = text[: found.start()] + str(draw.choice(NUMBERS)) + text[found.end() :]
    return text

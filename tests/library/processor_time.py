"""The processor time of programs that were run."""

from __future__ import annotations

import resource


def spent() -> float:
    """The seconds of processor time, of users and of the system, that all programs took that were run and have ended."""
    usage = resource.getrusage(resource.RUSAGE_CHILDREN)
    return usage.ru_utime + usage.ru_stime

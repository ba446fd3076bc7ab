"""What is told of a run besides the report."""

import os
import sys
import time
from collections import Counter

from rekwonuda.intake.answers import Outcome

# Seconds between two lines of progress.
PAUSE = 0.2
# Columns of a terminal that does not tell.
WIDTH = 80
# What files are counted by; folders can be absent too.
FILES = (Outcome.ACCEPTED, Outcome.DAMAGED, Outcome.NOT_COVERED, Outcome.ERROR)


class Tally:
    """Counts how files end, and shows it on standard error where that is a terminal."""

    def __init__(self) -> None:
        self._counts: Counter[Outcome] = Counter()
        self._earlier = 0
        self._is_shown = sys.stderr.isatty()
        self._next_shown = 0.0

    def count(self, outcome: Outcome, earlier: bool) -> None:
        """Takes in a file whose line is in the report, perhaps from an earlier run."""
        self._counts[outcome] += 1
        self._earlier += earlier
        if self._is_shown and time.monotonic() > self._next_shown:
            self._next_shown = time.monotonic() + PAUSE
            _show(self.summary())

    def clear(self) -> None:
        """Takes progress off the terminal."""
        if self._is_shown:
            _show("")

    def summary(self) -> str:
        parts = [f"{self._counts[outcome]:,} {outcome.value}" for outcome in FILES]
        total = sum(self._counts[outcome] for outcome in FILES)
        text = f"{_counted(total, 'file')}: {', '.join(parts)}"
        if self._counts[Outcome.ABSENT]:
            text += f"; no .pst file in {_counted(self._counts[Outcome.ABSENT], 'folder')}"
        if self._earlier:
            text += f"; {self._earlier:,} checked by an earlier run"
        return text

    def status(self) -> int:
        """The exit status: of several files the worst counts."""
        worst = Outcome.ACCEPTED
        for outcome in Outcome:
            if self._counts[outcome]:
                worst = outcome
        return worst.status


def _show(text: str) -> None:
    """Puts text in the place of what was shown, on one line of the terminal, however narrow."""
    columns = os.get_terminal_size(sys.stderr.fileno()).columns or WIDTH
    print(f"\r{text[: columns - 1]}\x1b[K", end="", file=sys.stderr, flush=True)


def _counted(number: int, noun: str) -> str:
    return f"{number:,} {noun}" + ("" if number == 1 else "s")

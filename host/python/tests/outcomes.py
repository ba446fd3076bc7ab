"""What calls come to, refused or not."""

from collections.abc import Callable, Iterable
from itertools import islice
from typing import TypeVar

from rekwonuda import Refusal

Answer = TypeVar("Answer")

MOST_ENTRIES = 70_000
"""More than there are in any list of the samples; a list that does not end is cut here."""


def told(call: Callable[[], Answer]) -> Answer | Refusal:
    """What a call answers, or its refusal."""
    try:
        return call()
    except Refusal as refusal:
        return refusal


def gone_through(entries: Iterable[Answer]) -> tuple[list[Answer], list[Refusal]]:
    """The entries up to the end, or up to a refusal, and that."""
    met = []
    try:
        for entry in islice(entries, MOST_ENTRIES):
            met.append(entry)
    except Refusal as refusal:
        return met, [refusal]
    return met, []

"""What a call is refused with."""

from enum import IntEnum
from typing import TypeVar

from .answers import Answer
from .calls import REFUSAL_WORDS

Told = TypeVar("Told", bound=Answer)


class Fault(IntEnum):
    """What is wrong, by the numbers of include/rekwonuda.h."""

    IMAGE_LENGTH = 1
    MAGIC = 2
    VERSION = 3
    HEADER_CHECKSUM = 4
    ENCODING = 5
    PAGE_OFFSET = 6
    PAGE_KIND = 7
    PAGE_NUMBER = 8
    PAGE_CHECKSUM = 9
    PAGE_COUNTS = 10
    KEY_ORDER = 11
    BLOCK_UNLISTED = 12
    BLOCK_OFFSET = 13
    BLOCK_TRAILER = 14
    BLOCK_CHECKSUM = 15
    DATA_TREE = 16
    SHORT_BUFFER = 17
    HEAP_SHAPE = 18
    HEAP_ITEM = 19
    PROPERTY_TREE = 20
    KEY_RANGE = 21
    TABLE_SHAPE = 23


WITHOUT_PLACE = frozenset(
    {
        Fault.BLOCK_UNLISTED,
        Fault.SHORT_BUFFER,
        Fault.HEAP_SHAPE,
        Fault.HEAP_ITEM,
        Fault.PROPERTY_TREE,
        Fault.TABLE_SHAPE,
    }
)


class Refusal(Exception):
    """The first fault that a call met, and its place. As text it says what is wrong and where.

    number: its number, which a `Fault` equals.
    place: where, an offset in the image, or 0.
    more: for `Fault.KEY_ORDER` and `Fault.KEY_RANGE` the index of the first entry at fault, from 0,
    otherwise 0. The calls of this package lend buffers that are long enough, and do not meet
    `Fault.SHORT_BUFFER`, for which it is the length needed.

    Two refusals are equal where these three numbers are.
    """

    def __init__(self, number: int, place: int = 0, more: int = 0) -> None:
        super().__init__(number, place, more)
        self.number = number
        self.place = place
        self.more = more

    @property
    def fault(self) -> Fault | None:
        """The fault by name; None for a number that has no name."""
        return Fault(self.number) if self.number in list(Fault) else None

    @property
    def words(self) -> str:
        """What is wrong, in words."""
        return REFUSAL_WORDS(self.number, self.place).decode()

    def __str__(self) -> str:
        return f"refusal {self.number}: {self.words}{self._where()}"

    def _where(self) -> str:
        place = f"{self.place:#x} ({self.place})"
        if self.number == Fault.SHORT_BUFFER:
            return f"; {self.more} bytes are needed"
        if self.number in (Fault.KEY_ORDER, Fault.KEY_RANGE):
            return f"; entry {self.more} (counted from 0) of the page at {place}"
        return f"; at {place}" if self._has_place() else ""

    def _has_place(self) -> bool:
        """Whether the fault has a place in the image."""
        if self.number in (Fault.IMAGE_LENGTH, Fault.ENCODING):
            return self.place != 0
        return self.number not in WITHOUT_PLACE

    def __eq__(self, other: object) -> bool:
        return isinstance(other, Refusal) and self.args == other.args

    def __hash__(self) -> int:
        return hash(self.args)


def refusal_of(answer: Answer) -> Refusal | None:
    """The refusal that an answer carries; None where the call is answered."""
    if answer.refusal == 0:
        return None
    return Refusal(answer.refusal, answer.place, answer.more)


def answered(answer: Told) -> Told:
    """The answer, or its refusal raised."""
    refusal = refusal_of(answer)
    if refusal is not None:
        raise refusal
    return answer

"""The two editions of a file."""

from __future__ import annotations

from enum import IntEnum

from .calls import ROOM, ROOM32

VERSIONS = {14: 32, 15: 32, 23: 64}


class Edition(IntEnum):
    """The edition of a file: how many bits the numbers of blocks and the offsets have in it."""

    BITS32 = 32
    """The older edition, also called ANSI: versions 14 and 15."""

    BITS64 = 64
    """The edition also called Unicode: version 23."""

    @staticmethod
    def of_version(version: int) -> Edition | None:
        """The edition of files whose header has that version; None where it is refused."""
        return Edition(VERSIONS[version]) if version in VERSIONS else None

    @property
    def width(self) -> int:
        """How many bytes the numbers of blocks and the offsets have: 8 or 4."""
        return self // 8

    @property
    def largest_block(self) -> int:
        """The most bytes that a block holds: 8,176 or 8,180."""
        return 8_180 if self is Edition.BITS32 else 8_176

    @property
    def most_listed(self) -> int:
        """The most blocks that a data tree lists: 1,021 or 2,043."""
        return (self.largest_block - 8) // self.width

    @property
    def longest_data(self) -> int:
        """The most bytes that the data of a node has: 8,347,696 or 16,711,740."""
        return self.most_listed * self.largest_block

    def room(self, size: int) -> int:
        """The room that a block with so many bytes of data takes in a file: the smallest multiple of 64
        that holds them and a trailer, which has 16 or 12 bytes. The size goes up to 2^32 - 1."""
        call = ROOM32 if self is Edition.BITS32 else ROOM
        return call(size)

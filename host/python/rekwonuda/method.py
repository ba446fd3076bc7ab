"""How the bytes of blocks are encoded."""

from __future__ import annotations

from ctypes import create_string_buffer
from enum import IntEnum
from typing import TYPE_CHECKING

from .answers import Answer
from .call import Call
from .calls import DECODE, ENCODE
from .held import bytes_of
from .refusal import answered

if TYPE_CHECKING:
    from _typeshed import ReadableBuffer


class Method(IntEnum):
    """How the bytes of blocks are encoded, by its number in the header.

    NONE: not at all.
    PERMUTE: each byte by a table.
    CYCLIC: each byte by tables, its place and the number of its block.
    """

    NONE = 0
    PERMUTE = 1
    CYCLIC = 2

    def encode(self, block: int, data: ReadableBuffer) -> bytes:
        """The bytes encoded as the data of that block, whatever their number and its."""
        return self._changed(ENCODE, block, data)

    def decode(self, block: int, data: ReadableBuffer) -> bytes:
        """The bytes decoded as the data of that block; undoes `encode`."""
        return self._changed(DECODE, block, data)

    def _changed(self, call: Call[Answer], block: int, data: ReadableBuffer) -> bytes:
        given = bytes_of(data)
        buffer = create_string_buffer(given, len(given))
        answered(call(self, block, buffer))
        return buffer.raw

"""Bytes that calls are lent: bytes objects, which do not change while a call runs."""

from __future__ import annotations

import os
from typing import TYPE_CHECKING

from .bounds import LONGEST_IMAGE

if TYPE_CHECKING:
    from _typeshed import ReadableBuffer, StrPath

STEP = 1 << 20
"""By how much is read on behind the length that a file states."""


def bytes_of(source: ReadableBuffer) -> bytes:
    """The bytes of a bytes-like object: itself where it is of type bytes, otherwise a copy."""
    return source if type(source) is bytes else memoryview(source).tobytes()


def file_bytes(path: StrPath) -> bytes:
    """The bytes of a file. Of one that is longer than the library takes, the first 2^30 + 1, which it
    refuses as it would refuse all. OSError where it cannot be read."""
    pieces = []
    with open(path, "rb") as file:
        left = LONGEST_IMAGE + 1
        asked = min(os.fstat(file.fileno()).st_size + 1, left)
        while asked > 0:
            pieces.append(file.read(asked))
            left -= len(pieces[-1])
            is_end = len(pieces[-1]) < asked
            asked = 0 if is_end else min(STEP, left)
    return b"".join(pieces)


class Held:
    """Holds bytes, which bytes() hands out."""

    __slots__ = ("_bytes",)

    def __init__(self, data: bytes) -> None:
        self._bytes = data

    def __bytes__(self) -> bytes:
        return self._bytes

    def __repr__(self) -> str:
        return f"<{type(self).__name__} of {len(self._bytes)} bytes>"

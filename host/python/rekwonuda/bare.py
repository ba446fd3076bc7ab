"""The calls that answer with a bare number."""

from __future__ import annotations

from typing import TYPE_CHECKING

from .calls import CHECKSUM, SIGNATURE
from .held import bytes_of

if TYPE_CHECKING:
    from _typeshed import ReadableBuffer


def checksum(data: ReadableBuffer) -> int:
    """The checksum of the bytes: polynomial EDB88320 hex, reflected, start 0, no inversion."""
    return CHECKSUM(bytes_of(data))


def signature(offset: int, number: int) -> int:
    """The signature of a page or block at that offset and with that number."""
    return SIGNATURE(offset, number)

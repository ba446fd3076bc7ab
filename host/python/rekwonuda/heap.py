"""A heap on a block, with its items and properties."""

from __future__ import annotations

from collections.abc import Iterator
from dataclasses import dataclass
from typing import TYPE_CHECKING

from .calls import FIND_PROPERTY, ITEM, TEST_HEAP, TEST_ITEM
from .held import Held, bytes_of
from .kind import Kind
from .refusal import answered

if TYPE_CHECKING:
    from _typeshed import ReadableBuffer

MOST_IDS = 1 << 16


@dataclass(frozen=True, slots=True)
class Property:
    """A property as it was found.

    id: its id.
    type_code: its type code.
    kind: what its value is, of all kinds but `Kind.MISSING`.
    value: the value, of `Kind.NUMBER` all four bytes as one number; of `Kind.ITEM` a number that
    `Heap.item` accepts; of `Kind.SUBNODE` the number of a subnode; of `Kind.EMPTY` 0.
    """

    id: int
    type_code: int
    kind: Kind
    value: int


class Heap(Held):
    """The bytes of one block with a heap on it, decoded, as `Image.read_block` hands them out.

    Any bytes will do: every call tests the heap's shape first.
    """

    __slots__ = ()

    PROPERTIES = 0xBC
    """The client kind of a heap that holds properties."""

    TABLE = 0x7C
    """The client kind of a heap that holds a table."""

    def __init__(self, block: ReadableBuffer) -> None:
        """Takes the bytes of a block, which are copied unless they are of type bytes. Nothing is tested
        yet."""
        super().__init__(bytes_of(block))

    def test(self) -> None:
        """Tests the shape of the heap. Refusal 18."""
        answered(TEST_HEAP(self._bytes))

    def client_kind(self) -> int:
        """Tests the shape of the heap and says what its client kind is: what it is used for, as
        `Heap.PROPERTIES` or `Heap.TABLE`. Refusal 18."""
        self.test()
        return self._bytes[3]

    def test_item(self, item: int) -> None:
        """Tests the heap and then the number of an item. Refusals 18 and 19; ValueError where the number
        is not under 2^32."""
        answered(TEST_ITEM(self._bytes, item))

    def item(self, item: int) -> bytes:
        """The bytes of an item. Refusals 18 and 19; ValueError where its number is not under 2^32."""
        answer = answered(ITEM(self._bytes, item))
        return self._bytes[answer.start : answer.start + answer.length]

    def find_property(self, property_id: int) -> Property | None:
        """Looks up a property by its id; None where it is absent. Refusals 18 to 20; ValueError where the
        id is not under 65,536."""
        answer = answered(FIND_PROPERTY(self._bytes, property_id))
        if answer.found == 0:
            return None
        return Property(property_id, answer.type, Kind(answer.kind), answer.value)

    def properties(self) -> Iterator[Property]:
        """All properties in the order of their ids, by a lookup of every id that there can be. A refusal,
        18 to 20, is raised behind the last property that could be found."""
        found = map(self.find_property, range(MOST_IDS))
        return (each for each in found if each is not None)

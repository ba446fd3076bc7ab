"""The bytes of a file, and the calls on them."""

from __future__ import annotations

import os
from collections.abc import Callable, Iterable, Iterator
from ctypes import c_uint64, create_string_buffer
from typing import TYPE_CHECKING, TypeVar

from .answers import NodeAnswer, area_of
from .bounds import LARGEST_BLOCK, MOST_NODES, SHORTEST_IMAGE
from .calls import (
    CHECK_BLOCKS,
    CHECK_NODES,
    FIND_BLOCK,
    FIND_NODE,
    FIND_NODES,
    HEADER,
    NEXT_BLOCK,
    NEXT_NODE,
    READ_BLOCK,
    READ_NODE,
    TEST_BLOCK,
    UNSIGNED_64,
)
from .entry import Block, Header, Lookup, Node, block_of, header_of, node_of
from .held import Held, bytes_of, file_bytes
from .refusal import Fault, Refusal, answered, refusal_of

if TYPE_CHECKING:
    from _typeshed import ReadableBuffer, StrPath

Listed = TypeVar("Listed", Node, Block)

LAST_NODE = (1 << 32) - 1
LAST_BLOCK = (1 << 64) - 1


class Image(Held):
    """The bytes of a .pst file, from its first.

    Any bytes will do. Every call checks all that its answer rests on, so that none needs another to have
    been made before it.

    The number of a node is one of 64 bits, as in C, of which the low four bytes count; that of a block
    has 64 bits. Any other raises ValueError.
    """

    __slots__ = ()

    def __init__(self, source: ReadableBuffer | StrPath) -> None:
        """Takes the bytes of a file: a bytes-like object, which is copied unless it is of type bytes, or
        the path of the file, which is read into memory. Nothing is tested yet. OSError where the file
        cannot be read."""
        if isinstance(source, (str, os.PathLike)):
            super().__init__(file_bytes(source))
        else:
            super().__init__(bytes_of(source))

    def header(self) -> Header:
        """Tests the header and says what stands in it. Refusals 1 to 5."""
        return header_of(answered(HEADER(self._bytes)))

    def hanging(self) -> bytes:
        """The bytes that hang on behind the file: those behind `Header.end` and behind the header itself.
        What other calls answer does not depend on them, while the image is no longer than
        `LONGEST_IMAGE`. Refusals 1 to 5."""
        return self._bytes[max(self.header().end, SHORTEST_IMAGE) :]

    def check_nodes(self) -> None:
        """Checks the header and then the whole node tree. Refusals 1 to 11, and 21."""
        answered(CHECK_NODES(self._bytes))

    def check_blocks(self) -> None:
        """Checks the header and then the whole block tree. Refusals 1 to 11, and 21."""
        answered(CHECK_BLOCKS(self._bytes))

    def find_node(self, node: int) -> Lookup[Node]:
        """Looks up a node. Refusals 1 to 11, and 21, of the header and of the pages on the way."""
        return node_of(answered(FIND_NODE(self._bytes, node)))

    def find_nodes(self, nodes: Iterable[int]) -> list[Lookup[Node] | Refusal]:
        """Looks up any number of nodes. Each answer is the one that `find_node` gives, and they stand in
        the order asked; numbers may come twice. A refusal, 1 to 11 or 21, is not raised: it stands in the
        places of the numbers that met it; one of the header stands in each. The library is called with up
        to 4,096 numbers at a time."""
        numbers = [number for node in nodes for number in UNSIGNED_64.lend("node", node)]
        pieces = range(0, len(numbers), MOST_NODES)
        found = (self._find_piece(numbers[start : start + MOST_NODES]) for start in pieces)
        return [answer for piece in found for answer in piece]

    def _find_piece(self, numbers: list[int]) -> list[Lookup[Node] | Refusal]:
        words, places = area_of(NodeAnswer, len(numbers))
        answered(FIND_NODES(self._bytes, (c_uint64 * len(numbers))(*numbers), words))
        return [refusal_of(place) or node_of(place) for place in places]

    def find_block(self, block: int) -> Lookup[Block]:
        """Looks up a block. Bit 0 of the number counts neither here nor in the block tree; the block is
        answered with its number as stored. Refusals 1 to 11, and 21, of the header and of the pages on
        the way."""
        return block_of(answered(FIND_BLOCK(self._bytes, block)))

    def next_node(self, start: int) -> Lookup[Node]:
        """Looks up the first node whose number is at least `start`. Refusals 1 to 11, and 21, of the
        header and of the pages on the way."""
        return node_of(answered(NEXT_NODE(self._bytes, start)))

    def next_block(self, start: int) -> Lookup[Block]:
        """Looks up the first block whose number, with bit 0 cleared, is at least `start` as given: so one
        above the number of a block is behind it, whether that has the bit or not. Refusals 1 to 11, and
        21, of the header and of the pages on the way."""
        return block_of(answered(NEXT_BLOCK(self._bytes, start)))

    def nodes(self) -> Iterator[Node]:
        """All nodes in the order of their numbers, by `next_node`. A refusal, 1 to 11 or 21, is raised
        behind the last node that could be listed."""
        return listed(self.next_node, LAST_NODE)

    def blocks(self) -> Iterator[Block]:
        """All blocks in the order of their numbers, by `next_block`. A refusal, 1 to 11 or 21, is raised
        behind the last block that could be listed."""
        return listed(self.next_block, LAST_BLOCK)

    def test_block(self, block: int) -> int:
        """Looks up a block, tests its place, trailer and checksum, and says how many bytes it holds.
        Refusals 1 to 15, and 21; 12 where the block is not listed."""
        return answered(TEST_BLOCK(self._bytes, block)).size

    def read_block(self, block: int) -> bytes:
        """Tests a block and hands out its bytes, decoded. Internal blocks are never encoded and come as
        they are stored. Refusals 1 to 15, and 21."""
        out = create_string_buffer(LARGEST_BLOCK)
        length = answered(READ_BLOCK(self._bytes, block, out)).length
        return out.raw[:length]

    def test_node(self, node: int) -> int | None:
        """Looks up a node, tests all blocks of its data and the shape of its data tree, and says how many
        bytes the data has: 0 for a node without data, None where the node is absent. Refusals 1 to 16,
        and 21.

        It is a read without a buffer: the refusal for that comes last, when all the rest has been
        accepted."""
        answer = READ_NODE(self._bytes, node, create_string_buffer(0))
        if answer.refusal == Fault.SHORT_BUFFER:
            return answer.more
        answered(answer)
        return answer.length if answer.found else None

    def read_node(self, node: int) -> bytes | None:
        """The data of a node, or None where the node is absent. Refusals 1 to 16, and 21."""
        length = self.test_node(node)
        if length is None:
            return None
        out = create_string_buffer(length)
        answered(READ_NODE(self._bytes, node, out))
        return out.raw


def listed(following: Callable[[int], Lookup[Listed]], last: int) -> Iterator[Listed]:
    """All entries, each behind the one before it; behind that of the last number there is none."""
    entry = following(0).entry
    while entry is not None:
        yield entry
        entry = following(entry.id + 1).entry if entry.id < last else None

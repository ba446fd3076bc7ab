"""What the calls on an image answer."""

from dataclasses import dataclass
from typing import Generic, TypeVar

from .answers import BlockAnswer, HeaderAnswer, NodeAnswer
from .edition import Edition
from .method import Method

Entry = TypeVar("Entry")


@dataclass(frozen=True, slots=True)
class PageReference:
    """The number of a page, and its offset in the image."""

    number: int
    offset: int


@dataclass(frozen=True, slots=True)
class Header:
    """What the header says.

    method: how block data is encoded.
    nodes, blocks: the root page of the node tree, and of the block tree.
    end: where the file ends; each page and each block ends there or before. At most the length of the
    image; `Image.hanging` has what follows.
    edition: the edition of the file.
    """

    method: Method
    nodes: PageReference
    blocks: PageReference
    end: int
    edition: Edition


@dataclass(frozen=True, slots=True)
class Lookup(Generic[Entry]):
    """What a lookup found.

    entry: the entry, or None where it is absent.
    pages: how many pages were read, also where the entry is absent.
    """

    entry: Entry | None
    pages: int


@dataclass(frozen=True, slots=True)
class Node:
    """A node as the node tree lists it.

    id: its number.
    data: the number of its data block, or of the root block of its data tree; None where the number
    stored is 0, or 1, which counts as 0.
    subnodes: the number of its subnode block, or None.
    parent: the number of its parent node as stored, which is not tested.
    """

    id: int
    data: int | None
    subnodes: int | None
    parent: int

    @property
    def has_data_tree(self) -> bool:
        """Whether its data is a data tree: several blocks, named by an internal one."""
        return self.data is not None and is_internal(self.data)


@dataclass(frozen=True, slots=True)
class Block:
    """A block as the block tree lists it.

    id: its number as stored.
    offset: where it starts in the image.
    size: how many bytes it holds.
    references: its reference count as stored, which is not tested.
    """

    id: int
    offset: int
    size: int
    references: int

    @property
    def is_internal(self) -> bool:
        """Whether it names other blocks, and is never encoded."""
        return is_internal(self.id)


def is_internal(block: int) -> bool:
    """Whether the block of that number is internal, which bit 1 says."""
    return block & 2 != 0


def header_of(answer: HeaderAnswer) -> Header:
    """The header that was answered."""
    return Header(
        Method(answer.method),
        PageReference(answer.nodes_number, answer.nodes_offset),
        PageReference(answer.blocks_number, answer.blocks_offset),
        answer.end,
        Edition(answer.edition),
    )


def node_of(answer: NodeAnswer) -> Lookup[Node]:
    """The lookup of a node that was answered."""
    if answer.found == 0:
        return Lookup(None, answer.pages)
    data = None if answer.data in (0, 1) else answer.data
    return Lookup(Node(answer.node, data, answer.subnode or None, answer.parent), answer.pages)


def block_of(answer: BlockAnswer) -> Lookup[Block]:
    """The lookup of a block that was answered."""
    if answer.found == 0:
        return Lookup(None, answer.pages)
    block = Block(answer.block, answer.offset, answer.size, answer.references)
    return Lookup(block, answer.pages)

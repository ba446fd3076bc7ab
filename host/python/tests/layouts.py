"""Where the fields of a file stand, in each edition."""

from dataclasses import dataclass

PAGE = 512
PAGE_NUMBER = 504
VERSION = 10
BITS32 = 14
BITS64 = 23
NODE_TREE = 0x81
BLOCK_TREE = 0x80


@dataclass(frozen=True)
class Layout:
    """Places count from the first byte of the file, the page or the trailer.

    width: the bytes of a number and of an offset.
    end, node_root, block_root, sentinel: fields of the header; the method is right behind the sentinel.
    second_checksum: of the header, which one edition has.
    counts: of a page the counts of its entries, their room, their size and its level, a byte each.
    kinds: of a page the two bytes of its kind, and then its signature; the checksum is of what is before.
    checksum: of a page.
    trailer: the bytes of a block's trailer: its size, its signature, and at these places the rest.
    """

    width: int
    end: int
    node_root: int
    block_root: int
    sentinel: int
    second_checksum: int | None
    counts: int
    kinds: int
    checksum: int
    trailer: int
    trailer_checksum: int
    trailer_number: int


LAYOUT_64 = Layout(
    width=8,
    end=184,
    node_root=216,
    block_root=232,
    sentinel=512,
    second_checksum=524,
    counts=488,
    kinds=496,
    checksum=500,
    trailer=16,
    trailer_checksum=4,
    trailer_number=8,
)

LAYOUT_32 = Layout(
    width=4,
    end=168,
    node_root=184,
    block_root=192,
    sentinel=460,
    second_checksum=None,
    counts=496,
    kinds=500,
    checksum=508,
    trailer=12,
    trailer_checksum=8,
    trailer_number=4,
)

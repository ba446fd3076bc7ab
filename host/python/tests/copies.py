"""Copies of a sample that can be changed, and sealed again: with checksums and signatures that fit. Both
are reckoned here by other means than the library's."""

import zlib
from random import Random

from layouts import BITS64, BLOCK_TREE, LAYOUT_32, LAYOUT_64, PAGE, PAGE_NUMBER, VERSION

from rekwonuda import Block, Image, Refusal

ALL_ONES = 0xFFFF_FFFF


def sum_of(data: bytes | bytearray) -> int:
    """The checksum, by that of zlib, which begins with all bits set and turns them over at the end."""
    return zlib.crc32(data, ALL_ONES) ^ ALL_ONES


def signature_of(offset: int, number: int) -> int:
    """The signature of a page or block."""
    mixed = (offset ^ number) & ALL_ONES
    return mixed >> 16 ^ mixed & 0xFFFF


class Copy:
    """A copy of a sample. What is chosen at random is the same in every run."""

    def __init__(self, sample: bytes, seed: str) -> None:
        self.sample = Image(sample)
        self.image = bytearray(sample)
        self.random = Random(seed)
        self.layout = LAYOUT_64 if sample[VERSION] == BITS64 else LAYOUT_32

    def number(self, at: int, width: int | None = None) -> int:
        """The number that stands there, as wide as an offset unless it is said."""
        return int.from_bytes(self.image[at : at + (width or self.layout.width)], "little")

    def put(self, at: int, number: int, width: int | None = None) -> None:
        """Puts a number there, as wide as an offset unless it is said."""
        width = width or self.layout.width
        self.image[at : at + width] = number.to_bytes(width, "little")

    def flip(self, start: int, end: int) -> None:
        """Turns over one bit of those bytes."""
        self.image[self.random.randrange(start, end)] ^= 1 << self.random.randrange(8)

    def seal_header(self) -> None:
        """Puts the checksums of the header right."""
        self.put(4, sum_of(self.image[8 : 8 + 471]), 4)
        if self.layout.second_checksum is not None:
            self.put(self.layout.second_checksum, sum_of(self.image[8 : 8 + 516]), 4)

    def seal_page(self, page: int) -> None:
        """Puts the signature and the checksum of a page right."""
        layout = self.layout
        self.put(page + layout.kinds + 2, signature_of(page, self.number(page + PAGE_NUMBER)), 2)
        self.put(page + layout.checksum, sum_of(self.image[page : page + layout.kinds]), 4)

    def levels(self, kind: int) -> dict[int, int]:
        """The offsets of the pages of a tree that are sealed, each with its level."""
        found = {}
        for page in range(0x4400, len(self.image) - PAGE + 1, PAGE):
            kinds = page + self.layout.kinds
            is_sealed = self.number(page + self.layout.checksum, 4) == sum_of(self.image[page:kinds])
            if is_sealed and self.image[kinds] == kind:
                found[page] = self.image[page + self.layout.counts + 3]
        return found

    def page(self, kind: int) -> int:
        """One of the pages of a tree."""
        return self.random.choice(list(self.levels(kind)))

    def leaf(self, kind: int) -> int:
        """One of the leaf pages of a tree."""
        return self.random.choice([page for page, level in self.levels(kind).items() if level == 0])

    def entry(self, page: int, index: int) -> int:
        """Where an entry of a page begins; -1 is the last."""
        count, size = self.image[page + self.layout.counts], self.image[page + self.layout.counts + 2]
        return page + size * (index % count)

    def blocks(self) -> list[Block]:
        """The blocks of the sample that the library accepts."""
        accepted = []
        try:
            for block in self.sample.blocks():
                if self.is_accepted(block):
                    accepted.append(block)
        except Refusal:
            pass
        return accepted

    def is_accepted(self, block: Block) -> bool:
        """Whether the library accepts the block in the sample."""
        try:
            return self.sample.test_block(block.id) == block.size
        except Refusal:
            return False

    def trailer(self, block: Block) -> int:
        """Where the trailer of a block begins."""
        end = block.offset + block.size + self.layout.trailer
        return end + -end % 64 - self.layout.trailer

    def rewrite(self, block: Block, data: bytes | bytearray) -> None:
        """Puts as many bytes into a block as it has, encoded and sealed."""
        stored = data
        if not block.is_internal:
            stored = self.sample.header().method.encode(block.id, data)
        assert len(stored) == block.size
        trailer = self.trailer(block)
        self.image[block.offset : block.offset + block.size] = stored
        self.put(trailer, block.size, 2)
        self.put(trailer + 2, signature_of(block.offset, block.id), 2)
        self.put(trailer + self.layout.trailer_checksum, sum_of(stored), 4)
        self.put(trailer + self.layout.trailer_number, block.id)

    def move(self, block: Block, data: bytes) -> None:
        """Lists a block at the end of the file, with other bytes and as many of them as are given."""
        offset = len(self.image) + -len(self.image) % 64
        moved = Block(block.id, offset, len(data), block.references)
        end = self.trailer(moved) + self.layout.trailer
        self.image += bytes(end - len(self.image))
        self.rewrite(moved, data)
        page, entry = self.listing(block)
        self.put(entry + self.layout.width, offset)
        self.put(entry + 2 * self.layout.width, len(data), 2)
        self.seal_page(page)
        self.put(self.layout.end, end)
        self.seal_header()

    def listing(self, block: Block) -> tuple[int, int]:
        """The leaf page that lists a block, and where its entry begins."""
        for page, level in self.levels(BLOCK_TREE).items():
            entries = [self.entry(page, index) for index in range(self.image[page + self.layout.counts])]
            for entry in entries:
                if level == 0 and self.number(entry) == block.id:
                    return page, entry
        raise LookupError(block)

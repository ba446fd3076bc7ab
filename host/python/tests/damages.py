"""Kinds of damage to a copy of a sample. Where the name ends in "sealed", checksums fit again."""

from collections.abc import Callable

from copies import Copy
from layouts import BITS32, BITS64, BLOCK_TREE, NODE_TREE, PAGE, PAGE_NUMBER, VERSION

from rekwonuda import Block, Heap, Table

Damage = Callable[[Copy], None]

HEAP_MARK = 0xEC


def none(copy: Copy) -> None:
    pass


def cut_to(length: int) -> Damage:
    def cut(copy: Copy) -> None:
        del copy.image[length:]

    return cut


def half(copy: Copy) -> None:
    del copy.image[len(copy.image) // 2 :]


def hang(count: int) -> Damage:
    def append(copy: Copy) -> None:
        copy.image += copy.random.randbytes(count)

    return append


def flip(start: int, end: int) -> Damage:
    def change(copy: Copy) -> None:
        copy.flip(start, end)

    return change


def version(copy: Copy) -> None:
    copy.put(VERSION, 99, 2)


def other_edition(copy: Copy) -> None:
    copy.put(VERSION, BITS32 if copy.image[VERSION] == BITS64 else BITS64, 2)
    copy.seal_header()


def sentinel(copy: Copy) -> None:
    copy.flip(copy.layout.sentinel, copy.layout.sentinel + 1)
    copy.seal_header()


def method(number: int) -> Damage:
    def change(copy: Copy) -> None:
        copy.put(copy.layout.sentinel + 1, number, 1)
        copy.seal_header()

    return change


def end(change: Callable[[int], int]) -> Damage:
    """Another end-of-file number, by the length of the image."""

    def put(copy: Copy) -> None:
        copy.put(copy.layout.end, change(len(copy.image)))
        copy.seal_header()

    return put


def root_offset(copy: Copy) -> None:
    copy.put(copy.layout.node_root + copy.layout.width, 0xFFFF_FE00)
    copy.seal_header()


def root_number(copy: Copy) -> None:
    copy.flip(copy.layout.block_root, copy.layout.block_root + copy.layout.width)
    copy.seal_header()


def roots_exchanged(copy: Copy) -> None:
    width = 2 * copy.layout.width
    nodes, blocks = copy.layout.node_root, copy.layout.block_root
    roots = copy.number(nodes, width), copy.number(blocks, width)
    copy.put(blocks, roots[0], width)
    copy.put(nodes, roots[1], width)
    copy.seal_header()


def page_byte(kind: int) -> Damage:
    def change(copy: Copy) -> None:
        page = copy.page(kind)
        copy.flip(page, page + copy.layout.kinds)

    return change


def page_kind(copy: Copy) -> None:
    page = copy.page(NODE_TREE)
    copy.flip(page + copy.layout.kinds, page + copy.layout.kinds + 2)


def page_number(copy: Copy) -> None:
    page = copy.page(BLOCK_TREE)
    copy.flip(page + PAGE_NUMBER, page + PAGE_NUMBER + copy.layout.width)
    copy.seal_page(page)


def page_counts(copy: Copy) -> None:
    page = copy.page(NODE_TREE)
    copy.flip(page + copy.layout.counts, page + copy.layout.counts + 4)
    copy.seal_page(page)


def page_zeroed(copy: Copy) -> None:
    page = copy.leaf(NODE_TREE)
    copy.image[page : page + PAGE] = bytes(PAGE)


def pages_exchanged(copy: Copy) -> None:
    one, other = copy.leaf(NODE_TREE), copy.leaf(BLOCK_TREE)
    kept = copy.image[one : one + PAGE]
    copy.image[one : one + PAGE] = copy.image[other : other + PAGE]
    copy.image[other : other + PAGE] = kept


def stale_page(copy: Copy) -> None:
    """The entries of one leaf in another one."""
    one, other = copy.leaf(NODE_TREE), copy.leaf(NODE_TREE)
    copy.image[one : one + copy.layout.kinds] = copy.image[other : other + copy.layout.kinds]
    copy.seal_page(one)


def keys_exchanged(kind: int) -> Damage:
    def change(copy: Copy) -> None:
        page = copy.leaf(kind)
        first, last = copy.entry(page, 0), copy.entry(page, -1)
        keys = copy.number(first), copy.number(last)
        copy.put(first, keys[1])
        copy.put(last, keys[0])
        copy.seal_page(page)

    return change


def key(kind: int, index: int, number: int) -> Damage:
    """Another key in an entry of a leaf."""

    def change(copy: Copy) -> None:
        page = copy.leaf(kind)
        copy.put(copy.entry(page, index), number)
        copy.seal_page(page)

    return change


def node_data(number: int) -> Damage:
    """Another data block of a node."""

    def change(copy: Copy) -> None:
        page = copy.leaf(NODE_TREE)
        entry = copy.entry(page, copy.random.randrange(15))
        copy.put(entry + copy.layout.width, number)
        copy.seal_page(page)

    return change


def block_offset(copy: Copy) -> None:
    page = copy.leaf(BLOCK_TREE)
    entry = copy.entry(page, copy.random.randrange(15))
    copy.flip(entry + copy.layout.width, entry + 2 * copy.layout.width)
    copy.seal_page(page)


def block_size(copy: Copy) -> None:
    page = copy.leaf(BLOCK_TREE)
    entry = copy.entry(page, copy.random.randrange(15))
    copy.flip(entry + 2 * copy.layout.width, entry + 2 * copy.layout.width + 2)
    copy.seal_page(page)


def block_byte(copy: Copy) -> None:
    block = copy.random.choice(copy.blocks())
    copy.flip(block.offset, block.offset + block.size)


def block_trailer(copy: Copy) -> None:
    trailer = copy.trailer(copy.random.choice(copy.blocks()))
    copy.flip(trailer, trailer + copy.layout.trailer)


def data_tree(start: int, end: int) -> Damage:
    """Another head of each data tree."""

    def change(copy: Copy) -> None:
        for block in copy.blocks():
            if block.is_internal:
                data = bytearray(copy.sample.read_block(block.id))
                data[copy.random.randrange(start, end)] ^= 3
                copy.rewrite(block, data)

    return change


def heaps(copy: Copy) -> list[Block]:
    """The blocks that begin as a heap does."""
    data = {block: copy.sample.read_block(block.id) for block in copy.blocks()}
    return [block for block, read in data.items() if read[2:3] == bytes([HEAP_MARK])]


def each_heap(share: float, count: int) -> Damage:
    """Some bytes of each heap changed, all in that share of its front or, below 0, of its end."""

    def change(copy: Copy) -> None:
        for block in heaps(copy):
            data = bytearray(copy.sample.read_block(block.id))
            reach = max(1, int(abs(share) * block.size))
            for _ in range(count):
                at = copy.random.randrange(reach)
                data[at if share > 0 else -1 - at] ^= 1 << copy.random.randrange(8)
            copy.rewrite(block, data)

    return change


def emptied(copy: Copy) -> None:
    """The texts of the first rows of all tables, and of all properties, are none."""
    for block in heaps(copy):
        data = bytearray(copy.sample.read_block(block.id))
        is_table = Heap(data).client_kind() == Heap.TABLE
        references = row_references if is_table else property_references
        for at in references(bytes(data)):
            data[at : at + 4] = bytes(4)
        copy.rewrite(block, data)


def row_references(data: bytes) -> list[int]:
    """Where in a block the first row of a table refers to its texts."""
    table = Table(data)
    if not table.row_count():
        return []
    rows = data.index(table.heap.item(table.record().rows_value))
    return [rows + column.offset for column in table.columns() if is_text(column.type_code)]


def property_references(data: bytes) -> list[int]:
    """Where in a block the records of properties refer to their texts."""
    heap = Heap(data)
    tree = heap.item(int.from_bytes(data[4:8], "little"))
    records = heap.item(int.from_bytes(tree[4:8], "little"))
    places = range(data.index(records), data.index(records) + len(records), 8)
    return [at + 4 for at in places if is_text(int.from_bytes(data[at + 2 : at + 4], "little"))]


def is_text(type_code: int) -> bool:
    """Whether values of that type are text, 16-bit or 8-bit, which stands in an item."""
    return type_code in (0x1E, 0x1F)


def anywhere(count: int) -> Damage:
    def change(copy: Copy) -> None:
        for _ in range(count):
            copy.flip(0, len(copy.image))

    return change


FILE_DAMAGES: dict[str, Damage] = {
    "nothing changed": none,
    "no byte left": cut_to(0),
    "cut in the header": cut_to(563),
    "cut behind the header": cut_to(564),
    "cut in half": half,
    "last byte cut": lambda copy: cut_to(len(copy.image) - 1)(copy),
    "one byte behind": hang(1),
    "many bytes behind": hang(4_096),
    "first mark": flip(0, 4),
    "first checksum": flip(4, 8),
    "second mark": flip(8, 10),
    "version": version,
    "other edition, sealed": other_edition,
    "byte of the header": flip(200, 471),
    "second checksum": flip(524, 528),
    "sentinel, sealed": sentinel,
    "method 0, sealed": method(0),
    "method 2, sealed": method(2),
    "method 3, sealed": method(3),
    "end 0, sealed": end(lambda length: 0),
    "end too high, sealed": end(lambda length: length + 1),
    "end too low, sealed": end(lambda length: length - 1_000),
    "root offset, sealed": root_offset,
    "root number, sealed": root_number,
    "roots exchanged, sealed": roots_exchanged,
    "byte of a node page": page_byte(NODE_TREE),
    "byte of a block page": page_byte(BLOCK_TREE),
    "kind of a page": page_kind,
    "number of a page, sealed": page_number,
    "counts of a page, sealed": page_counts,
    "page zeroed": page_zeroed,
    "pages exchanged": pages_exchanged,
    "stale page, sealed": stale_page,
    "node keys exchanged, sealed": keys_exchanged(NODE_TREE),
    "block keys exchanged, sealed": keys_exchanged(BLOCK_TREE),
    "first node key 0, sealed": key(NODE_TREE, 0, 0),
    "last node key highest, sealed": key(NODE_TREE, -1, 0xFFFF_FFFF),
    "last block key high, sealed": key(BLOCK_TREE, -1, 0xFFFF_FFFE),
    "no data block of a node, sealed": node_data(0),
    "data block 1 of a node, sealed": node_data(1),
    "unlisted data block of a node, sealed": node_data(0x7FFF_FFF0),
    "offset of a block, sealed": block_offset,
    "size of a block, sealed": block_size,
    "three bits anywhere": anywhere(3),
    "thirty bits anywhere": anywhere(30),
}

BLOCK_DAMAGES: dict[str, Damage] = {
    "byte of a block": block_byte,
    "trailer of a block": block_trailer,
    "level of a data tree, sealed": data_tree(1, 2),
    "count of a data tree, sealed": data_tree(2, 4),
}

HEAP_DAMAGES: dict[str, Damage] = {
    "nothing changed": none,
    "values of each heap, sealed": emptied,
    "head of each heap, sealed": each_heap(0.05, 1),
    "front of each heap, sealed": each_heap(0.3, 2),
    "end of each heap, sealed": each_heap(-0.05, 1),
    "three bits of each heap, sealed": each_heap(1, 3),
    "twelve bits of each heap, sealed": each_heap(1, 12),
}

"""The calls on an image: what it is made of, and answers that are known of the samples."""

import array
import mmap
import os
from collections.abc import Callable
from concurrent.futures import ThreadPoolExecutor
from pathlib import Path
from threading import Barrier

import pytest
from copies import Copy
from layouts import BLOCK_TREE, NODE_TREE
from outcomes import gone_through, told
from program import MOST_SECONDS, SAMPLES

from rekwonuda import (
    Edition,
    Fault,
    Header,
    Heap,
    Image,
    Lookup,
    Method,
    Node,
    PageReference,
    Refusal,
    held,
)

OFFICE = SAMPLES / "office.pst"
BYTES = OFFICE.read_bytes()


class Misleading(bytes):
    """Bytes that lie about their length and their contents."""

    def __len__(self) -> int:
        return 1 << 40

    def __bytes__(self) -> bytes:
        return b""


@pytest.fixture
def image() -> Image:
    return Image(OFFICE)


@pytest.mark.parametrize(
    "source",
    [
        BYTES,
        bytearray(BYTES),
        memoryview(BYTES),
        memoryview(BYTES[::-1])[::-1],
        array.array("I", BYTES),
        Misleading(BYTES),
        OFFICE,
        str(OFFICE),
    ],
    ids=lambda source: type(source).__name__,
)
def test_an_image_is_made_of_any_source(source: bytes) -> None:
    assert bytes(Image(source)) == BYTES
    assert type(bytes(Image(source))) is bytes
    Image(source).check_nodes()


def test_an_image_is_made_of_a_mapping() -> None:
    with open(OFFICE, "rb") as file, mmap.mmap(file.fileno(), 0, access=mmap.ACCESS_READ) as mapping:
        image = Image(mapping)
    assert bytes(image) == BYTES


def test_bytes_are_not_copied() -> None:
    assert bytes(Image(BYTES)) is BYTES


def test_what_happens_to_a_source_later_does_not_matter() -> None:
    source = bytearray(BYTES)
    image, heap = Image(source), Heap(source)
    source[:] = bytes(len(source))
    assert bytes(image) == bytes(heap) == BYTES


@pytest.mark.parametrize("source", [None, 7, 1.5, [1, 2]])
def test_what_is_no_source_is_an_error_of_type(source: bytes) -> None:
    with pytest.raises(TypeError):
        Image(source)


def test_a_file_that_is_not_there_is_an_error_of_the_system(tmp_path: Path) -> None:
    with pytest.raises(FileNotFoundError):
        Image(tmp_path / "absent.pst")
    with pytest.raises(IsADirectoryError):
        Image(tmp_path)


def test_of_a_long_file_one_byte_more_than_is_taken_is_read(monkeypatch: pytest.MonkeyPatch) -> None:
    monkeypatch.setattr(held, "LONGEST_IMAGE", 40_000)
    assert bytes(Image(OFFICE)) == BYTES[:40_001]
    assert bytes(Image("/dev/zero")) == bytes(40_001)
    monkeypatch.setattr(held, "LONGEST_IMAGE", len(BYTES) - 1)
    assert bytes(Image(OFFICE)) == BYTES


def test_a_stream_is_read_to_its_end(tmp_path: Path, monkeypatch: pytest.MonkeyPatch) -> None:
    monkeypatch.setattr(held, "STEP", 1_000)
    stream = tmp_path / "stream"
    os.mkfifo(stream)
    with ThreadPoolExecutor(1) as pool:
        reading = pool.submit(Image, stream)
        stream.write_bytes(BYTES)
        assert bytes(reading.result(MOST_SECONDS)) == BYTES


def test_an_empty_image_is_refused_by_every_call() -> None:
    image = Image(b"")
    calls: list[Callable[[], object]] = [
        image.header,
        image.hanging,
        image.check_nodes,
        image.check_blocks,
        lambda: image.find_node(0),
        lambda: image.find_block(0),
        lambda: image.next_node(0),
        lambda: image.next_block(0),
        lambda: next(image.nodes()),
        lambda: next(image.blocks()),
        lambda: image.test_block(0),
        lambda: image.read_block(0),
        lambda: image.test_node(0),
        lambda: image.read_node(0),
    ]
    assert [told(call) for call in calls] == [Refusal(1)] * len(calls)
    assert image.find_nodes([1, 2]) == [Refusal(1)] * 2


def test_the_header_of_the_sample_is_known(image: Image) -> None:
    nodes, blocks = PageReference(520, 48_640), PageReference(515, 46_080)
    assert image.header() == Header(Method.PERMUTE, nodes, blocks, 49_152, Edition.BITS64)
    assert Image(SAMPLES / "small-office.pst").header().edition is Edition.BITS32


def test_lookups_tell_the_pages_read(image: Image) -> None:
    assert image.find_node(0x8082) == Lookup(Node(0x8082, 24, None, 0x8022), 2)
    assert image.find_node(7) == Lookup(None, 1)
    assert image.find_block(3) == Lookup(None, 1)
    assert image.next_node(0x8083).entry == image.find_node(0x808D).entry


def test_of_the_number_of_a_node_the_low_four_bytes_count(image: Image) -> None:
    assert image.find_node(0x1_0000_8082) == image.find_node(0x8082)
    assert image.find_nodes([0x1_0000_8082]) == [image.find_node(0x8082)]
    assert image.read_node(0xFFFF_FFFF_0000_8082) == image.read_node(0x8082)


def test_many_nodes_are_looked_up_in_the_order_asked(image: Image) -> None:
    numbers = [number * 7919 % 70_000 for number in range(10_000)]
    answers = image.find_nodes(number for number in numbers)
    assert answers == [image.find_node(number) for number in numbers]
    assert image.find_nodes([]) == []


def test_bit_0_of_the_number_of_a_block_does_not_count(image: Image) -> None:
    for block in image.blocks():
        assert image.find_block(block.id ^ 1).entry == image.find_block(block.id).entry == block
        assert image.read_block(block.id ^ 1) == image.read_block(block.id)


def test_blocks_are_read_decoded(image: Image) -> None:
    method = image.header().method
    for block in image.blocks():
        stored = BYTES[block.offset : block.offset + block.size]
        plain = stored if block.is_internal else method.decode(block.id, stored)
        assert image.read_block(block.id) == plain
        assert image.test_block(block.id) == block.size == len(plain)


@pytest.mark.parametrize("sample", ["office.pst", "small-office.pst"])
def test_a_block_of_the_greatest_length_is_read(sample: str) -> None:
    copy = Copy((SAMPLES / sample).read_bytes(), sample)
    block = next(copy.sample.blocks())
    data = copy.random.randbytes(copy.sample.header().edition.largest_block)
    copy.move(block, data)
    assert Image(copy.image).read_block(block.id) == data
    copy.move(block, data + b"x")
    refusal = told(lambda: Image(copy.image).read_block(block.id))
    assert isinstance(refusal, Refusal)
    assert refusal.fault is Fault.BLOCK_OFFSET


def test_the_data_of_a_node_is_that_of_its_blocks(image: Image) -> None:
    seen = set()
    for node in image.nodes():
        data = image.read_node(node.id)
        seen.add((node.has_data_tree, node.data is None))
        if node.data is None:
            assert data == b""
        elif node.has_data_tree:
            listed = image.read_block(node.data)[8:]
            numbers = [int.from_bytes(listed[at : at + 8], "little") for at in range(0, len(listed), 8)]
            assert data == b"".join(map(image.read_block, numbers))
        else:
            assert data == image.read_block(node.data)
    assert seen == {(False, False), (True, False), (False, True)}


def test_a_node_that_is_absent_has_no_data(image: Image) -> None:
    assert image.read_node(7) is None
    assert image.test_node(7) is None


def test_what_hangs_on_is_handed_out() -> None:
    assert Image(BYTES).hanging() == b""
    assert Image(BYTES + b"old bytes").hanging() == b"old bytes"


def test_lists_end_behind_the_highest_number() -> None:
    nodes, blocks = Copy(BYTES, "nodes"), Copy(BYTES, "blocks")
    for copy, kind, highest in ((nodes, NODE_TREE, (1 << 32) - 1), (blocks, BLOCK_TREE, (1 << 64) - 1)):
        leaves = [page for page, level in copy.levels(kind).items() if level == 0]
        copy.put(copy.entry(leaves[-1], -1), highest)
        copy.seal_page(leaves[-1])
    listed_nodes, _ = gone_through(Image(nodes.image).nodes())
    listed_blocks, _ = gone_through(Image(blocks.image).blocks())
    assert (len(listed_nodes), listed_nodes[-1].id) == (60, (1 << 32) - 1)
    assert (len(listed_blocks), listed_blocks[-1].id) == (45, (1 << 64) - 1)


def test_threads_get_the_same_answers(image: Image) -> None:
    """Each thread goes through all of the sample, several times."""
    barrier = Barrier(4)

    def read(_: int) -> list[bytes | None]:
        barrier.wait(MOST_SECONDS)
        return [image.read_node(node.id) for _ in range(20) for node in image.nodes()]

    with ThreadPoolExecutor(4) as pool:
        answers = list(pool.map(read, range(4)))
    alone = [image.read_node(node.id) for node in image.nodes()]
    assert answers == [alone * 20] * 4


def test_an_image_is_shown_by_its_length(image: Image) -> None:
    assert repr(image) == "<Image of 49152 bytes>"

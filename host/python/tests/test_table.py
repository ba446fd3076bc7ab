"""Tables whose rows stand in a subnode, and what else no command shows."""

import pytest
from outcomes import told
from program import SAMPLES

from rekwonuda import ROW_ID, Cell, Edition, Heap, Image, Kind, Refusal, Table, tag_of

FOLDERS = 0x802D
ROWS = 4
SUBNODE = 0x3F


@pytest.fixture(params=["office.pst", "small-office.pst"])
def image(request: pytest.FixtureRequest) -> Image:
    return Image(SAMPLES / request.param)


@pytest.fixture
def block(image: Image) -> bytes:
    """The table of folders."""
    data = image.read_node(FOLDERS)
    assert data is not None
    return data


def rows_of(block: bytes) -> bytes:
    """The bytes of the rows, which stand in an item."""
    return Heap(block).item(Table(block).record().rows_value)


def in_subnode(block: bytes) -> bytes:
    """The same table, with its rows in a subnode: bytes 14 to 18 of its record say so."""
    record = Heap(block).item(int.from_bytes(block[4:8], "little"))
    changed = record[:14] + SUBNODE.to_bytes(4, "little") + record[18:]
    return block.replace(record, changed, 1)


def test_rows_of_a_subnode_are_those_that_are_given(block: bytes) -> None:
    table, other = Table(block), Table(in_subnode(block), rows_of(block))
    record = other.record()
    assert (record.rows_kind, record.rows_value) == (Kind.SUBNODE, SUBNODE)
    assert other.row_count() == table.row_count() == ROWS
    for row in range(ROWS + 1):
        assert other.row(row) == table.row(row)
        assert other.cell(row, ROW_ID) == table.cell(row, ROW_ID)


def test_rows_that_are_not_given_are_not_known(block: bytes) -> None:
    table = Table(in_subnode(block))
    assert table.row_count() is None
    assert table.row(0) is None
    assert table.cell(0, ROW_ID) is None
    assert Table(in_subnode(block), b"").row_count() == 0


def test_rows_over_a_block_are_refused(block: bytes) -> None:
    row_size = Table(block).record().row_size
    assert told(Table(in_subnode(block), bytes(8_180)).row_count) == 8_180 // row_size
    assert told(Table(in_subnode(block), bytes(8_181)).row_count) == Refusal(23)
    assert told(Table(block, bytes(8_181)).row_count) == ROWS


def test_rows_are_found_by_their_ids(image: Image, block: bytes) -> None:
    edition = image.header().edition
    row = Table(block).find_row(0x8082, edition)
    assert row is not None
    assert Table(block).cell(row, ROW_ID) == Cell(Kind.NUMBER, 0x8082)
    assert Table(block).find_row(0x8083, edition) is None


def test_the_row_index_of_the_other_edition_is_refused(image: Image, block: bytes) -> None:
    [other] = set(Edition) - {image.header().edition}
    assert told(lambda: Table(block).find_row(0x8082, other)) == Refusal(23)


def test_columns_are_found_by_their_tags(block: bytes) -> None:
    table = Table(block)
    columns = list(table.columns())
    assert len(columns) == table.record().columns == 13
    for column in columns:
        assert table.find_column(column.tag) == column
        assert tag_of(column.property_id, column.type_code) == column.tag
    assert table.find_column(0) is None
    assert table.cell(0, 0) is None


def test_an_item_that_the_heap_has_not_is_refused(block: bytes) -> None:
    heap = Heap(block)
    assert told(lambda: heap.item(0)) == told(lambda: heap.test_item(0)) == Refusal(19)
    heap.test_item(0x20)
    assert heap.item(0x20) in block
    assert heap.client_kind() == Heap.TABLE
    assert told(lambda: Heap(block).find_property(0x3001)) == Refusal(20)


def test_no_block_holds_no_table() -> None:
    table = Table(b"")
    calls = [table.record, table.row_count, lambda: list(table.columns()), lambda: table.row(0)]
    assert [told(call) for call in calls] == [Refusal(18)] * 4
    assert told(Heap(bytes(40)).client_kind) == Refusal(18)
    assert repr(table) == "<Table of 0 bytes>"

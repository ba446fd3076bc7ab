"""A table on a heap, with its columns, rows and cells."""

from __future__ import annotations

from collections.abc import Iterator
from dataclasses import dataclass
from itertools import count
from typing import TYPE_CHECKING

from .answers import CellAnswer, area_of
from .bounds import MOST_COLUMNS
from .calls import CELL, COLUMN, COUNT_ROWS, FIND_ROW, FIND_ROW32, READ_ROW, TABLE
from .edition import Edition
from .heap import Heap
from .held import bytes_of
from .kind import Kind
from .refusal import Refusal, answered, refusal_of

if TYPE_CHECKING:
    from _typeshed import ReadableBuffer


def tag_of(property_id: int, type_code: int) -> int:
    """The tag of a property of that id and type: the id in its high two bytes, the type in its low."""
    return property_id << 16 | type_code


ROW_ID = tag_of(0x67F2, 3)
"""The tag of the number that each row of a table is known by; see `Table.find_row`."""


@dataclass(frozen=True, slots=True)
class TableRecord:
    """What the record of a table says.

    columns: how many columns the table has.
    row_size: how many bytes a row has.
    existence: where in a row its existence bytes begin; they go up to its end.
    rows_kind: where the rows stand. `Kind.EMPTY`: nowhere, there are none. `Kind.ITEM`: in the heap item
    of number rows_value, which is tested when rows are asked for. `Kind.SUBNODE`: in the subnode of
    number rows_value, whose bytes `Table` takes.
    rows_value: that number, or 0.
    """

    columns: int
    row_size: int
    existence: int
    rows_kind: Kind
    rows_value: int


@dataclass(frozen=True, slots=True)
class Column:
    """A column of a table.

    tag: its tag, which no other column of the table has.
    offset: where in a row its cell begins.
    width: how many bytes its cell has.
    bit: its existence bit; bit 0 is the highest of the first existence byte.
    """

    tag: int
    offset: int
    width: int
    bit: int

    @property
    def property_id(self) -> int:
        """The id of its property."""
        return self.tag >> 16

    @property
    def type_code(self) -> int:
        """The type code of its property."""
        return self.tag & 0xFFFF


@dataclass(frozen=True, slots=True)
class Cell:
    """A cell of a table.

    kind: what its value is.
    value: the value, of `Kind.NUMBER` the number itself; of `Kind.ITEM` a number that `Heap.item` of
    `Table.heap` accepts; of `Kind.SUBNODE` the number of a subnode; otherwise 0.
    """

    kind: Kind
    value: int


class Table:
    """A table context: the bytes of one block with a heap on it, decoded, and where the rows stand in a
    subnode, the bytes of that subnode's block.

    Any bytes will do. Every call tests the table first: the shape of the heap (refusal 18), its client
    kind (23), the number of the item that holds the table record (19), the record and all columns (23).
    Numbers of rows, tags and ids are under 2^32, otherwise ValueError is raised.
    """

    __slots__ = ("_block", "_rows", "_has_rows")

    def __init__(self, block: ReadableBuffer, rows: ReadableBuffer | None = None) -> None:
        """Takes the bytes of a block, and those of the block that holds the rows; what is not of type
        bytes is copied. The rows are looked at only where they stand in a subnode; that these are the
        bytes of that subnode is for the caller to know. Nothing is tested yet."""
        self._block = bytes_of(block)
        self._rows = b"" if rows is None else bytes_of(rows)
        self._has_rows = rows is not None

    def __repr__(self) -> str:
        return f"<Table of {len(self._block)} bytes>"

    @property
    def heap(self) -> Heap:
        """The heap that the table stands on, for the items that hold its values."""
        return Heap(self._block)

    def record(self) -> TableRecord:
        """Tests the table and says what its record says. Refusals 18, 19 and 23."""
        answer = answered(TABLE(self._block))
        return TableRecord(
            answer.columns,
            answer.row_size,
            answer.existence,
            Kind(answer.rows_kind),
            answer.rows_value,
        )

    def columns(self) -> Iterator[Column]:
        """All columns in the order in which they are stored. Refusals 18, 19 and 23, before the first."""
        for index in count():
            answer = answered(COLUMN(self._block, index))
            if answer.found == 0:
                return
            yield Column(answer.tag, answer.offset, answer.width, answer.bit)

    def find_column(self, tag: int) -> Column | None:
        """The column of that tag, by a scan of all; None where there is none. Refusals 18, 19 and 23."""
        return next((column for column in self.columns() if column.tag == tag), None)

    def row_count(self) -> int | None:
        """How many rows there are: as many as whole rows fit into the rows' bytes. None where the rows
        stand in a subnode and were not given, so that the count is not known. Refusals 18, 19 and 23; 19
        too where the rows stand in an item that the heap has not, 23 too where those of a subnode are
        over 8,180 bytes."""
        if not self._has_rows and self.record().rows_kind == Kind.SUBNODE:
            return None
        return answered(COUNT_ROWS(self._block, self._rows)).rows

    def cell(self, row: int, tag: int) -> Cell | None:
        """The cell of a row, counted from 0, in the column of that tag. None where the table has no such
        row or no such column, and where `row_count` is not known. Refusals as of `row_count`; 19 too
        where the value stands in an item that the heap has not."""
        answer = answered(CELL(self._block, self._rows, row, tag))
        return cell_of(answer) if answer.found else None

    def row(self, row: int) -> list[Cell | Refusal] | None:
        """All cells of a row, counted from 0, in the order of the columns, by one call. Each is what
        `cell` answers; its refusal, 19, is not raised and stands in its place. None where the table has
        no such row, and where `row_count` is not known. Refusals as of `row_count`."""
        words, places = area_of(CellAnswer, MOST_COLUMNS)
        answer = answered(READ_ROW(self._block, self._rows, row, words))
        if answer.found == 0:
            return None
        return [refusal_of(place) or cell_of(place) for place in places[: answer.cells]]

    def find_row(self, row_id: int, edition: Edition) -> int | None:
        """Looks up in the row index which row has that id: its number as stored, and None where the index
        names none. Whether the table has such a row, and that the row has that id, is not tested; it
        stands in the row's cell of `ROW_ID`. The edition is that of the file, which `Header.edition`
        says; a heap does not. Refusals 18, 19 and 23, of the table and of the items of the row index on
        the way; 23 for the row index of the other edition."""
        call = FIND_ROW32 if Edition(edition) is Edition.BITS32 else FIND_ROW
        answer = answered(call(self._block, row_id))
        return answer.row if answer.found else None


def cell_of(answer: CellAnswer) -> Cell:
    """The cell that was answered."""
    return Cell(Kind(answer.kind), answer.value)

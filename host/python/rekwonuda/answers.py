"""The structs that the calls answer with, each field 64 bits wide and in the header's order."""

from ctypes import Array, Structure, c_uint64, sizeof
from typing import TypeVar

Struct = TypeVar("Struct", bound=Structure)


def laid_out(struct: type[Struct]) -> type[Struct]:
    """The struct with a field for each name that its class declares, in their order."""
    struct._fields_ = [(name, c_uint64) for name in struct.__annotations__]
    return struct


def area_of(struct: type[Struct], count: int) -> "tuple[Array[c_uint64], Array[Struct]]":
    """An area with so many places for the struct: as the words that a call is lent, and as structs."""
    words = (c_uint64 * (count * sizeof(struct) // sizeof(c_uint64)))()
    return words, (struct * count).from_buffer(words)


@laid_out
class Answer(Structure):
    """Accepted or done, or refused. Every other answer begins with these fields."""

    refusal: int
    place: int
    more: int


@laid_out
class HeaderAnswer(Answer):
    """What the header says."""

    method: int
    nodes_number: int
    nodes_offset: int
    blocks_number: int
    blocks_offset: int
    end: int
    edition: int


@laid_out
class NodeAnswer(Answer):
    """A node."""

    found: int
    pages: int
    node: int
    data: int
    subnode: int
    parent: int


@laid_out
class BlockAnswer(Answer):
    """A block as it is listed."""

    found: int
    pages: int
    block: int
    offset: int
    size: int
    references: int


@laid_out
class SizeAnswer(Answer):
    """How many bytes a block holds."""

    size: int


@laid_out
class LengthAnswer(Answer):
    """How many bytes stand at the front of a buffer."""

    length: int


@laid_out
class DataAnswer(Answer):
    """The data of a node."""

    found: int
    length: int


@laid_out
class ItemAnswer(Answer):
    """Where an item stands in a block."""

    start: int
    length: int


@laid_out
class PropertyAnswer(Answer):
    """A property."""

    found: int
    type: int
    kind: int
    value: int


@laid_out
class TableAnswer(Answer):
    """What the record of a table says."""

    columns: int
    row_size: int
    existence: int
    rows_kind: int
    rows_value: int


@laid_out
class ColumnAnswer(Answer):
    """A column."""

    found: int
    tag: int
    offset: int
    width: int
    bit: int


@laid_out
class CountAnswer(Answer):
    """How many rows a table has."""

    rows: int


@laid_out
class CellAnswer(Answer):
    """A cell."""

    found: int
    kind: int
    value: int


@laid_out
class RowAnswer(Answer):
    """The row that the row index names for an id."""

    found: int
    row: int


@laid_out
class CellsAnswer(Answer):
    """How many cells of a row stand in an area."""

    found: int
    cells: int

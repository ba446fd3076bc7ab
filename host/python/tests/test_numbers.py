"""Numbers that do not fit a parameter are no numbers of a call, and are not cut to fit."""

from collections.abc import Callable
from typing import Any

import pytest
from outcomes import told
from program import SAMPLES

from rekwonuda import Edition, Heap, Image, Method, Table, signature

IMAGE = Image(SAMPLES / "office.pst")
HEAP = Heap(b"")
TABLE = Table(b"")

CALLS: dict[str, tuple[int, Callable[[Any], object]]] = {
    "find_node": (64, IMAGE.find_node),
    "find_nodes": (64, lambda number: IMAGE.find_nodes([0x122, number])),
    "find_block": (64, IMAGE.find_block),
    "next_node": (64, IMAGE.next_node),
    "next_block": (64, IMAGE.next_block),
    "test_block": (64, IMAGE.test_block),
    "read_block": (64, IMAGE.read_block),
    "test_node": (64, IMAGE.test_node),
    "read_node": (64, IMAGE.read_node),
    "encode": (64, lambda number: Method.CYCLIC.encode(number, b"bytes")),
    "decode": (64, lambda number: Method.CYCLIC.decode(number, b"bytes")),
    "test_item": (32, HEAP.test_item),
    "item": (32, HEAP.item),
    "find_property": (16, HEAP.find_property),
    "row of a cell": (32, lambda number: TABLE.cell(number, 0)),
    "tag of a cell": (32, lambda number: TABLE.cell(0, number)),
    "row": (32, TABLE.row),
    "find_row, 64-bit": (32, lambda number: TABLE.find_row(number, Edition.BITS64)),
    "find_row, 32-bit": (32, lambda number: TABLE.find_row(number, Edition.BITS32)),
    "offset of a signature": (64, lambda number: signature(number, 0)),
    "number of a signature": (64, lambda number: signature(0, number)),
    "room, 64-bit": (32, Edition.BITS64.room),
    "room, 32-bit": (32, Edition.BITS32.room),
}


@pytest.mark.parametrize("name", CALLS)
def test_a_number_that_does_not_fit_is_an_error_of_value(name: str) -> None:
    bits, call = CALLS[name]
    for number in (-1, 1 << bits, 1 << 100):
        with pytest.raises(ValueError, match=rf" is {number}, and goes from 0 to {(1 << bits) - 1}$"):
            call(number)


@pytest.mark.parametrize("name", CALLS)
def test_the_lowest_and_the_highest_number_are_taken(name: str) -> None:
    bits, call = CALLS[name]
    for number in (0, (1 << bits) - 1):
        told(lambda: call(number))


@pytest.mark.parametrize("name", CALLS)
@pytest.mark.parametrize("other", [1.0, "1", None, b"1"], ids=repr)
def test_what_is_no_number_is_an_error_of_type(name: str, other: object) -> None:
    _, call = CALLS[name]
    with pytest.raises(TypeError):
        call(other)


def test_an_edition_that_there_is_not_is_an_error_of_value() -> None:
    with pytest.raises(ValueError):
        TABLE.find_row(0, 16)  # type: ignore[arg-type]

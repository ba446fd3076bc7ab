"""What the library answers of data, properties and tables is what the command line answers."""

from pathlib import Path
from typing import Any

import pytest
from copies import Copy
from damages import HEAP_DAMAGES
from outcomes import gone_through, told
from program import SAMPLES, answer, refusals_of

from rekwonuda import ROW_ID, Cell, Edition, Heap, Image, Kind, Node, Property, Refusal, Table

NAMES = [
    f"{sample}: {damage}" for sample in ("office.pst", "small-office.pst") for damage in HEAP_DAMAGES
]

MOST_PROPERTY_NODES = 3
"""Of so many nodes of a copy all properties are read, which takes a lookup of every id."""

Files = dict[str, Path]


@pytest.fixture(scope="session")
def files(tmp_path_factory: pytest.TempPathFactory) -> Files:
    """A damaged copy for each name."""
    folder = tmp_path_factory.mktemp("heaps")
    paths = {}
    for at, name in enumerate(NAMES):
        sample, damage = name.split(": ")
        copy = Copy((SAMPLES / sample).read_bytes(), seed=name)
        HEAP_DAMAGES[damage](copy)
        paths[name] = folder / f"{at}.pst"
        paths[name].write_bytes(copy.image)
    return paths


@pytest.fixture(params=NAMES)
def path(request: pytest.FixtureRequest, files: Files) -> Path:
    return files[request.param]


def nodes_of_kind(image: Image, kind: int) -> list[Node]:
    """The nodes whose data is one block that begins as a heap of that client kind does."""
    nodes = [node for node in image.nodes() if not node.has_data_tree]
    return [node for node in nodes if data_of(image, node)[2:4] == bytes([0xEC, kind])]


def data_of(image: Image, node: Node) -> bytes:
    """The data of a node that is there."""
    data = image.read_node(node.id)
    assert data is not None
    return data


def value_facts(heap: Heap, found: Property | Cell) -> dict[str, Any]:
    """A value as the command line tells it."""
    match found.kind:
        case Kind.NUMBER:
            return {"number": found.value}
        case Kind.ITEM:
            return {"item": found.value, "bytes": heap.item(found.value).hex()}
        case Kind.SUBNODE:
            return {"subnode": found.value}
        case Kind.EMPTY:
            return {"empty": True}
        case Kind.MISSING:
            return {"missing": True}


def without(facts: dict[str, Any], *fields: str) -> dict[str, Any]:
    return {field: value for field, value in facts.items() if field not in fields}


def test_data_is_that_of_node(path: Path, tmp_path: Path) -> None:
    image = Image(path)
    for node in list(image.nodes())[::3]:
        out = tmp_path / str(node.id)
        line = answer("node", path, node.id, "-o", out)
        data = data_of(image, node)
        assert (line["length"], out.read_bytes()) == (len(data), data)


def test_properties_are_those_of_props(path: Path) -> None:
    image = Image(path)
    nodes = nodes_of_kind(image, Heap.PROPERTIES)
    for node in nodes[:: max(1, len(nodes) // MOST_PROPERTY_NODES)]:
        line = answer("props", path, node.id)
        heap = Heap(data_of(image, node))
        found, refusals = gone_through(heap.properties())
        facts = [
            {"id": each.id, "type": each.type_code} | value_facts(heap, each) for each in found
        ]
        listed = [without(each, "type_name", "text") for each in line.get("properties", [])]
        assert (facts, refusals) == (listed, refusals_of(line))
        assert found == [heap.find_property(each.id) for each in found]


def cell_facts(heap: Heap, cell: Cell | Refusal) -> dict[str, Any]:
    """A cell as the command line tells it."""
    if isinstance(cell, Refusal):
        return {"refused": cell.number}
    if cell.kind == Kind.NUMBER:
        return {"number": str(cell.value)}
    return value_facts(heap, cell)


def row_facts(table: Table, row: int, edition: Edition) -> tuple[dict[str, Any], list[Refusal]]:
    """A row as the command line tells it, and what of it is refused."""
    cells = table.row(row)
    assert cells is not None
    tags = [column.tag for column in table.columns()]
    assert cells == [told(lambda: table.cell(row, tag)) for tag in tags]
    facts: dict[str, Any] = {"row": row}
    refusals = [cell for cell in cells if isinstance(cell, Refusal)]
    cell = dict(zip(tags, cells, strict=True)).get(ROW_ID)
    if isinstance(cell, Cell) and cell.kind == Kind.NUMBER and cell.value < 1 << 32:
        facts["id"] = row_id = cell.value
        indexed = told(lambda: table.find_row(row_id, edition))
        if isinstance(indexed, Refusal):
            refusals.append(indexed)
        else:
            facts["indexed_row"] = indexed
    return facts | {"cells": [cell_facts(table.heap, cell) for cell in cells]}, refusals


def told_row(row: dict[str, Any]) -> dict[str, Any]:
    """A row of the command line, without what it says of the meaning of values."""
    return row | {"cells": [without(cell, "boolean", "time", "text") for cell in row["cells"]]}


def is_as_told(table: Table, line: dict[str, Any], edition: Edition) -> None:
    """Of a table that is accepted."""
    count = table.row_count()
    assert count is not None
    assert table.row(count) is None
    rows = [row_facts(table, row, edition) for row in range(count)]
    columns = [(column.tag, column.type_code) for column in table.columns()]
    assert columns == [(column["tag"], column["type"]) for column in line["columns"]]
    assert [facts for facts, _ in rows] == [told_row(row) for row in line["rows"]]
    refusals = [refusal for _, refused in rows for refusal in refused]
    assert list(dict.fromkeys(refusals)) == refusals_of(line)


def test_tables_are_those_of_table(path: Path) -> None:
    image = Image(path)
    for node in nodes_of_kind(image, Heap.TABLE):
        line = answer("table", path, node.id)
        table = Table(data_of(image, node))
        count = told(table.row_count)
        if line["outcome"] == "not covered":
            assert (count, table.record().rows_kind) == (None, Kind.SUBNODE)
        elif isinstance(count, Refusal):
            assert [count] == refusals_of(line)
        else:
            is_as_told(table, line, image.header().edition)


def test_damages_are_of_all_kinds(files: Files) -> None:
    """Every refusal of a heap was met, and every kind of value, so that no comparison is for nothing."""
    refused, kinds = set(), set()
    for path in files.values():
        image = Image(path)
        for node in image.nodes():
            table = Table(data_of(image, node))
            row = told(lambda: table.row(0))
            found = told(lambda: table.heap.find_property(0x3001))
            met = [found, *row] if isinstance(row, list) else [found, row]
            refused |= {each.number for each in met if isinstance(each, Refusal)}
            kinds |= {(type(each), each.kind) for each in met if isinstance(each, (Cell, Property))}
    assert refused == {18, 19, 20, 23}
    assert kinds >= {(Cell, kind) for kind in Kind}
    assert kinds >= {(Property, kind) for kind in (Kind.EMPTY, Kind.ITEM)}

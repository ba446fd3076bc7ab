"""What the library answers of samples and damaged copies is what the command line answers."""

from collections.abc import Callable, Iterator
from pathlib import Path
from typing import Any

import pytest
from copies import Copy
from damages import BLOCK_DAMAGES, FILE_DAMAGES
from outcomes import gone_through, told
from program import SAMPLES, answer, answers, refusals_of

from rekwonuda import Block, Header, Image, Lookup, Node, PageReference, Refusal

ALL_DAMAGES = FILE_DAMAGES | BLOCK_DAMAGES

DAMAGES_OF = {"office.pst": ALL_DAMAGES, "small-office.pst": ALL_DAMAGES, "mini.img": FILE_DAMAGES}
"""The last sample has no block."""

NAMES = [f"{sample}: {damage}" for sample, damages in DAMAGES_OF.items() for damage in damages]


class Files:
    """All copies, each with its file and what a full check of it told."""

    def __init__(self, folder: Path) -> None:
        self.images = {name: image_of(name) for name in NAMES}
        self.paths = {name: folder / f"{at}.pst" for at, name in enumerate(NAMES)}
        for name, path in self.paths.items():
            path.write_bytes(bytes(self.images[name]))
        lines = answers("check", "--all", *self.paths.values())
        self.checks = {Path(line["file"]): line for line in lines if "file" in line}


def image_of(name: str) -> Image:
    sample, damage = name.split(": ")
    copy = Copy((SAMPLES / sample).read_bytes(), seed=name)
    ALL_DAMAGES[damage](copy)
    return Image(copy.image)


@pytest.fixture(scope="session")
def files(tmp_path_factory: pytest.TempPathFactory) -> Files:
    return Files(tmp_path_factory.mktemp("files"))


@pytest.fixture(params=NAMES)
def name(request: pytest.FixtureRequest) -> str:
    return str(request.param)


@pytest.fixture
def image(files: Files, name: str) -> Image:
    return files.images[name]


@pytest.fixture
def path(files: Files, name: str) -> Path:
    return files.paths[name]


@pytest.fixture
def check(files: Files, path: Path) -> dict[str, Any]:
    """What `check --all` tells of the file."""
    return files.checks[path]


def number_or_none(digits: str | None) -> int | None:
    return None if digits is None else int(digits)


def node_in(listed: dict[str, Any]) -> Node:
    data, subnodes = number_or_none(listed["data"]), number_or_none(listed["subnode"])
    return Node(listed["node"], data, subnodes, listed["parent"])


def block_in(listed: dict[str, Any]) -> Block:
    offset, references = int(listed["offset"]), listed["references"]
    return Block(int(listed["block"]), offset, listed["size"], references)


def header_facts(header: Header, hanging: bytes) -> dict[str, Any]:
    """The header as the command line tells it."""

    def root(page: PageReference) -> dict[str, str]:
        return {"number": str(page.number), "offset": str(page.offset)}

    return {
        "edition": header.edition,
        "end": str(header.end),
        "hanging": len(hanging),
        "method": header.method.name.lower(),
        "node_root": root(header.nodes),
        "block_root": root(header.blocks),
    }


def test_headers_are_those_of_info(image: Image, path: Path) -> None:
    line = answer("info", path)
    header = told(image.header)
    if isinstance(header, Refusal):
        assert [header] == refusals_of(line) == [told(image.hanging)]
    else:
        facts = header_facts(header, image.hanging())
        assert facts == {field: line.get(field) for field in facts}
    assert len(bytes(image)) == int(line["size"])


def test_nodes_are_those_of_nodes(image: Image, path: Path) -> None:
    line = answer("nodes", path)
    assert gone_through(image.nodes()) == ([*map(node_in, line["nodes"])], refusals_of(line))


def test_blocks_are_those_of_blocks(image: Image, path: Path) -> None:
    line = answer("blocks", path)
    blocks, refusals = gone_through(image.blocks())
    kinds = ["internal" if block.is_internal else "data" for block in blocks]
    assert (blocks, refusals) == ([*map(block_in, line["blocks"])], refusals_of(line))
    assert kinds == [listed["kind"] for listed in line["blocks"]]


def lookup_in(place: dict[str, Any]) -> Lookup[Node] | Refusal:
    """What `find` tells of a node."""
    if place["outcome"] == "refused":
        return Refusal(place["number"], int(place["place"]), int(place["more"]))
    return Lookup(node_in(place) if place["outcome"] == "found" else None, place["pages"])


def test_lookups_are_those_of_find(image: Image, path: Path) -> None:
    listed = Image(SAMPLES / "office.pst").nodes()
    numbers = [node.id + step for node in listed for step in (0, 1)] + [0, 0xFFFF_FFFF]
    line = answer("find", path, *numbers)
    expected = [lookup_in(place) for place in line["nodes"]]
    assert image.find_nodes(numbers) == expected
    assert [told(lambda: image.find_node(number)) for number in numbers] == expected
    refused = [each for each in expected if isinstance(each, Refusal)]
    assert list(dict.fromkeys(refused)) == refusals_of(line)


def refusals_in(check: dict[str, Any], stage: str) -> list[Refusal]:
    of_stage = [refusal for refusal in check["refusals"] if refusal["stage"] == stage]
    return refusals_of({"refusals": of_stage})


def test_trees_are_checked_as_by_check(image: Image, check: dict[str, Any]) -> None:
    calls: dict[str, Callable[[], object]] = {
        "header": image.header,
        "node tree": image.check_nodes,
        "block tree": image.check_blocks,
    }
    for stage, call in calls.items():
        refusals = refusals_in(check, "header") or refusals_in(check, stage)
        answered = told(call)
        assert [answered][: isinstance(answered, Refusal)] == refusals[:1]


def refused_by_number(check: dict[str, Any], stage: str, field: str) -> dict[int, Refusal]:
    """What a stage refuses, by the number of the block or node."""
    numbers = [int(refusal[field]) for refusal in check["refusals"] if refusal["stage"] == stage]
    return dict(zip(numbers, refusals_in(check, stage), strict=True))


def test_blocks_are_tested_as_by_check(image: Image, check: dict[str, Any]) -> None:
    numbers = (block.id for block in image.blocks())
    are_tested_as_by(refused_by_number(check, "blocks", "block"), numbers, image.test_block)


def test_data_is_tested_as_by_check(image: Image, check: dict[str, Any]) -> None:
    numbers = (node.id for node in image.nodes())
    are_tested_as_by(refused_by_number(check, "node data", "node"), numbers, image.test_node)


def are_tested_as_by(
    by_check: dict[int, Refusal], numbers: Iterator[int], test: Callable[[int], int | None]
) -> None:
    """Behind a page that is refused the command line goes on and tests more; here the list ends."""
    listed, _ = gone_through(numbers)
    tested = {number: told(lambda: test(number)) for number in listed}
    refused = {number: each for number, each in tested.items() if isinstance(each, Refusal)}
    assert refused == {number: by_check[number] for number in by_check if number in tested}
    assert None not in tested.values()


@pytest.mark.parametrize("sample", ["office.pst", "small-office.pst"])
def test_lengths_are_those_of_check(sample: str) -> None:
    image = Image(SAMPLES / sample)
    stages = {stage["stage"]: stage for stage in answer("check", SAMPLES / sample)["stages"]}
    sizes = [image.test_block(block.id) for block in image.blocks()]
    lengths = [image.test_node(node.id) or 0 for node in image.nodes()]
    assert (len(sizes), sum(sizes)) == (stages["blocks"]["blocks"], stages["blocks"]["bytes"])
    data = stages["node data"]
    assert (len(lengths), sum(lengths)) == (data["nodes"], data["bytes"])


def test_damages_are_of_all_kinds(files: Files) -> None:
    """Every refusal that a check can meet was met, so that no comparison above is for nothing."""
    met = {refusal["number"] for check in files.checks.values() for refusal in check["refusals"]}
    assert met == {*range(1, 17), 21}

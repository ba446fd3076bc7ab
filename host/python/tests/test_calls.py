"""What the package declares is what include/rekwonuda.h declares. ctypes would let a difference pass."""

import re
from ctypes import POINTER, c_char, c_char_p, c_size_t, c_uint8, c_uint16, c_uint32, c_uint64, sizeof
from enum import IntEnum
from typing import Any

import pytest
from program import REPOSITORY

import rekwonuda
from rekwonuda import Fault, Kind, Method, answers, calls
from rekwonuda.answers import Answer
from rekwonuda.call import Call

HEADER = (REPOSITORY / "include" / "rekwonuda.h").read_text(encoding="utf-8")

TYPES: dict[str, Any] = {
    "const uint8_t *": c_char_p,
    "uint8_t *": POINTER(c_char),
    "const uint64_t *": POINTER(c_uint64),
    "uint64_t *": POINTER(c_uint64),
    "const char *": c_char_p,
    "size_t": c_size_t,
    "uint8_t": c_uint8,
    "uint16_t": c_uint16,
    "uint32_t": c_uint32,
    "uint64_t": c_uint64,
}

BY_LIBRARY = "rkw_version"
"""It is called where the library is loaded, and declared there."""


def type_of(in_c: str) -> Any:
    """`struct rkw_node_answer` is NodeAnswer."""
    if not in_c.startswith("struct rkw_"):
        return TYPES[in_c]
    words = in_c.removeprefix("struct rkw_").split("_")
    return getattr(answers, "".join(map(str.capitalize, words)))


def call_in(answer: str, parameters: str) -> tuple[Any, list[Any], list[str]]:
    """The type of the answer, those of the parameters, and the names of all but lengths."""
    split = [re.fullmatch(r"(.*?) ?(\w+)", parameter) for parameter in parameters.split(", ")]
    pairs = [(match[1], match[2]) for match in split if match is not None]
    names = [name for in_c, name in pairs if in_c != "size_t"]
    return type_of(answer), [type_of(in_c) for in_c, _ in pairs], names


def calls_in_header() -> dict[str, Any]:
    declared = re.findall(r"^(\w.*?) ?(rkw_\w+)\((.*)\);$", HEADER, re.MULTILINE)
    return {
        name: call_in(answer, parameters)
        for answer, name, parameters in declared
        if name != BY_LIBRARY
    }


def test_calls_are_those_of_the_header() -> None:
    declared = [call for call in vars(calls).values() if isinstance(call, Call)]
    assert calls_in_header() == {
        call.name: (call.answer_type, call.parameter_types, [name for name, _ in call.parameters])
        for call in declared
    }
    assert f"\nuint64_t {BY_LIBRARY}(void);\n" in HEADER


def test_a_call_takes_as_many_arguments_as_it_has_parameters() -> None:
    with pytest.raises(ValueError, match="shorter"):
        calls.FIND_NODE(b"")
    with pytest.raises(ValueError, match="longer"):
        calls.FIND_NODE(b"", 1, 2)


def structs_in_header() -> dict[str, list[str]]:
    found = {}
    for name, body in re.findall(r"^struct (rkw_\w+) \{\n(.*?)^\};", HEADER, re.MULTILINE | re.DOTALL):
        lines = re.findall(r"    uint64_t (.*);\n", body)
        assert len(lines) == body.count("\n")
        found[type_of(f"struct {name}").__name__] = ", ".join(lines).split(", ")
    return found


def fields_of(struct: type[Answer]) -> list[str]:
    """All fields, those that it shares with other answers first."""
    bases = reversed(struct.__mro__)
    return [field[0] for base in bases for field in base.__dict__.get("_fields_", [])]


def test_structs_are_those_of_the_header() -> None:
    structs = [each for each in vars(answers).values() if isinstance(each, type(Answer))]
    declared = [struct for struct in structs if issubclass(struct, Answer)]
    assert structs_in_header() == {struct.__name__: fields_of(struct) for struct in declared}
    for struct in declared:
        fields = fields_of(struct)
        places = [getattr(struct, field).offset for field in fields]
        assert places == list(range(0, sizeof(struct), 8))


@pytest.mark.parametrize(
    ("prefix", "names"), [("RKW_REFUSED_", Fault), ("RKW_METHOD_", Method), ("RKW_KIND_", Kind)]
)
def test_names_are_those_of_the_header(prefix: str, names: type[IntEnum]) -> None:
    listed = re.findall(rf"^    {prefix}(\w+) = (\d+),?$", HEADER, re.MULTILINE)
    assert listed == [(each.name, str(each.value)) for each in names]


def test_version_is_that_of_the_header() -> None:
    assert f"#define RKW_VERSION {rekwonuda.VERSION}\n" in HEADER
    assert f'#define RKW_VERSION_TEXT "{rekwonuda.__version__}"\n' in HEADER

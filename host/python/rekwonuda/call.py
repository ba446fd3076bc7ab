"""A call of the shared library. What is lent to it is made sure of here: that a pointer and its length
are those of one object, and that a number fits its parameter, since ctypes would cut it."""

from collections.abc import Callable
from ctypes import Array, c_char, c_char_p, c_size_t, c_uint64, sizeof
from functools import cached_property
from operator import index
from typing import Any, Generic, TypeVar, Union

from .library import library

Answered = TypeVar("Answered")

Argument = Union[int, bytes, "Array[c_char]", "Array[c_uint64]"]

RESULTS: dict[type, type] = {int: c_uint64, bytes: c_char_p}
"""The types of C for calls that answer with no struct."""


class Area:
    """A pointer and, as the parameter behind it, its length."""

    def __init__(self, pointer: Any) -> None:
        self.types = (pointer, c_size_t)

    def lend(self, name: str, area: Any) -> tuple[Any, int]:
        """The object and how many elements it has."""
        return area, len(area)


class Number:
    """A number without a sign."""

    def __init__(self, width: Any) -> None:
        self.types = (width,)
        self.most = (1 << 8 * sizeof(width)) - 1

    def lend(self, name: str, number: Any) -> tuple[int]:
        """The number. ValueError where it does not fit."""
        number = index(number)
        if not 0 <= number <= self.most:
            raise ValueError(f"{name} is {number}, and goes from 0 to {self.most}")
        return (number,)


Parameter = Union[Area, Number]


class Call(Generic[Answered]):
    """A call by its name, the type of its answer, and its parameters in their order. A length has no name
    of its own. A parameter that is called like a word of Python has a low line behind its name."""

    def __init__(self, name: str, answer: type[Answered], **parameters: Parameter) -> None:
        self.name = name
        self.answer = answer
        self.parameters = [(name.rstrip("_"), parameter) for name, parameter in parameters.items()]

    @property
    def parameter_types(self) -> list[Any]:
        """The types of the parameters in C, lengths among them."""
        return [each for _, parameter in self.parameters for each in parameter.types]

    @property
    def answer_type(self) -> type:
        """The type of the answer in C."""
        return RESULTS.get(self.answer, self.answer)

    @cached_property
    def _function(self) -> Callable[..., Answered]:
        function = library()[self.name]
        function.argtypes = self.parameter_types
        function.restype = self.answer_type
        return function

    def __call__(self, *arguments: Argument) -> Answered:
        lent: list[Any] = []
        for (name, parameter), argument in zip(self.parameters, arguments, strict=True):
            lent += parameter.lend(name, argument)
        return self._function(*lent)

"""The shared library: where it is sought, and that it is of the version that this package is for."""

import os
from ctypes import CDLL, c_uint64
from functools import cache
from threading import Lock

VERSION = 100
"""The version of the library that this package was written for, counted as RKW_VERSION is."""

NAME = "librkw.so.0"

VARIABLE = "REKWONUDA_LIBRARY"

_loading = Lock()


class LibraryNotFound(ImportError):
    """The shared library could not be loaded. The message names what was tried."""


class LibraryOfOtherVersion(ImportError):
    """The shared library is of another version, so that its structs might be misread."""


def library() -> CDLL:
    """The shared library, which is loaded when it is asked for first."""
    with _loading:
        return _load()


@cache
def _load() -> CDLL:
    loaded = _first_of(_candidates())
    version = _version_of(loaded)
    if version != VERSION:
        known = "an unknown version" if version is None else f"version {version}"
        raise LibraryOfOtherVersion(
            f"{loaded._name} is of {known}, and this package is for version {VERSION}"
        )
    return loaded


def _candidates() -> list[str]:
    """The path that the environment names, alone; or the places beside the package, and then the name
    for the loader. The package lies three folders below PREFIX/lib, or below the repository's root."""
    named = os.environ.get(VARIABLE)
    if named:
        return [os.path.abspath(named)]
    base = os.path.abspath(os.path.join(os.path.dirname(__file__), "..", "..", ".."))
    return [os.path.join(base, NAME), os.path.join(base, "target", "lib", NAME), NAME]


def _first_of(candidates: list[str]) -> CDLL:
    failures = []
    for candidate in candidates:
        try:
            return CDLL(candidate)
        except OSError as failure:
            failures.append(str(failure))
    tried = "; ".join(failures)
    raise LibraryNotFound(
        f"{NAME} could not be loaded: {tried}. The environment variable {VARIABLE} may name its path"
    )


def _version_of(loaded: CDLL) -> int | None:
    """None of a library that does not tell it."""
    if not hasattr(loaded, "rkw_version"):
        return None
    call = loaded.rkw_version
    call.argtypes = ()
    call.restype = c_uint64
    return int(call())

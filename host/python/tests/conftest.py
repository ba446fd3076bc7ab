"""What all tests need: the shared library and the command line's program, which the environment names."""

import os

import pytest

NEEDED = {
    "REKWONUDA_LIBRARY": "the path of librkw.so.0",
    "REKWONUDA_PROGRAM": "the path of the command line's program",
}


def pytest_configure() -> None:
    missing = [f"{name}, {what}" for name, what in NEEDED.items() if not os.environ.get(name)]
    if missing:
        raise pytest.UsageError(f"not set in the environment: {'; '.join(missing)}")

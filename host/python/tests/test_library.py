"""Where the library is found, when it is loaded, and that one of another version is refused."""

import _ctypes
import os
import shutil
import subprocess
import sys
from pathlib import Path

import pytest
from program import MOST_SECONDS

import rekwonuda
from rekwonuda import library

NAMED = os.environ["REKWONUDA_LIBRARY"]
PACKAGE = Path(rekwonuda.__file__).parent

CALL = "import rekwonuda; print(rekwonuda.checksum(b'\\x80'))"
LOADED = "from rekwonuda.library import library; print(library()._name)"


def run(program: str, packages: Path, **variables: str) -> str:
    """The last line that a new interpreter prints, which finds the package in that folder."""
    ran = subprocess.run(
        [sys.executable, "-B", "-c", program],
        cwd=packages,
        env=variables,
        stdout=subprocess.PIPE,
        stderr=subprocess.STDOUT,
        text=True,
        check=False,
        timeout=MOST_SECONDS,
    )
    return ran.stdout.splitlines()[-1]


def installed(packages: Path) -> Path:
    """The package in that folder, without anything around it."""
    ignored = shutil.ignore_patterns("__pycache__")
    shutil.copytree(PACKAGE, packages / "rekwonuda", ignore=ignored)
    return packages


@pytest.mark.parametrize(
    ("packages", "place"),
    [("lib/python3.11/dist-packages", "lib"), ("host/python", "target/lib")],
    ids=["installed", "in the repository"],
)
def test_the_library_is_found_beside_the_package(tmp_path: Path, packages: str, place: str) -> None:
    (tmp_path / place).mkdir(parents=True)
    (tmp_path / place / library.NAME).symlink_to(NAMED)
    folder = installed(tmp_path / packages)
    assert run(LOADED, folder) == str(tmp_path / place / library.NAME)
    assert run(CALL, folder) == str(0xEDB8_8320)


def test_the_library_is_found_by_the_loader(tmp_path: Path) -> None:
    folder = installed(tmp_path / "lib/python3.11/dist-packages")
    (tmp_path / library.NAME).symlink_to(NAMED)
    assert run(LOADED, folder, LD_LIBRARY_PATH=str(tmp_path)) == library.NAME


def test_the_environment_comes_first(tmp_path: Path) -> None:
    folder = installed(tmp_path / "lib/python3.11/dist-packages")
    (tmp_path / "lib" / library.NAME).symlink_to(NAMED)
    assert run(LOADED, folder, REKWONUDA_LIBRARY=NAMED) == os.path.abspath(NAMED)
    assert "LibraryNotFound" in run(CALL, folder, REKWONUDA_LIBRARY="/nowhere/librkw.so.0")
    assert run(CALL, folder, REKWONUDA_LIBRARY="") == str(0xEDB8_8320)


def test_a_library_that_is_not_found_is_told_with_all_that_was_tried(tmp_path: Path) -> None:
    folder = installed(tmp_path / "lib/python3.11/dist-packages")
    message = run(CALL, folder)
    assert message.startswith("rekwonuda.library.LibraryNotFound: librkw.so.0 could not be loaded: ")
    for tried in ("lib/librkw.so.0", "lib/target/lib/librkw.so.0"):
        assert f"{tmp_path / tried}: cannot open shared object file" in message
    assert "; librkw.so.0: cannot open shared object file" in message
    assert message.endswith("The environment variable REKWONUDA_LIBRARY may name its path")


def test_the_library_is_loaded_by_the_first_call() -> None:
    program = "import rekwonuda; rekwonuda.Image(b''); print('no call')"
    assert run(program, PACKAGE.parent, REKWONUDA_LIBRARY="/nowhere") == "no call"


ASKED_FIRST = """
from concurrent.futures import ThreadPoolExecutor
from threading import Barrier, Event
from rekwonuda import library

loads, second, barrier = [], Event(), Barrier(8)
first_of = library._first_of

def counted(candidates):
    loads.append(1)
    if len(loads) > 1:
        second.set()
    second.wait(0.5)
    return first_of(candidates)

def ask(_):
    barrier.wait(60)
    return library.library()

library._first_of = counted
with ThreadPoolExecutor(8) as pool:
    print(len(set(pool.map(ask, range(8)))), len(loads))
"""


def test_threads_that_ask_for_the_library_first_load_it_once() -> None:
    """The one that loads it gives others half a second to do it too."""
    assert run(ASKED_FIRST, PACKAGE.parent, REKWONUDA_LIBRARY=NAMED) == "1 1"


def test_a_library_of_another_version_is_refused() -> None:
    program = f"from rekwonuda import library; library.VERSION = 200; {CALL}"
    message = run(program, PACKAGE.parent, REKWONUDA_LIBRARY=NAMED)
    named = os.path.abspath(NAMED)
    assert message == (
        f"rekwonuda.library.LibraryOfOtherVersion: {named} is of version {rekwonuda.VERSION}, "
        "and this package is for version 200"
    )


def test_a_library_without_a_version_is_refused() -> None:
    message = run(CALL, PACKAGE.parent, REKWONUDA_LIBRARY=_ctypes.__file__)
    named = f"rekwonuda.library.LibraryOfOtherVersion: {_ctypes.__file__}"
    assert message.startswith(f"{named} is of an unknown version, ")


def test_both_are_errors_of_import() -> None:
    assert issubclass(rekwonuda.LibraryNotFound, ImportError)
    assert issubclass(rekwonuda.LibraryOfOtherVersion, ImportError)

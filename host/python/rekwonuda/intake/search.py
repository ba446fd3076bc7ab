"""The files that the arguments name, found as they are asked for."""

import os
import stat
from collections.abc import Iterable, Iterator
from typing import Union

from rekwonuda.intake.answers import Answer, empty_folder, unchecked

# A file to check, or the answer for what cannot be checked.
Found = Union[bytes, Answer]


def search(paths: Iterable[bytes]) -> Iterator[Found]:
    """Files as they are named, and in folders every file whose name ends in .pst.

    Every path is absolute and told once, and every argument leads to something.
    """
    told = set()
    for found in _all(paths):
        path = found.path if isinstance(found, Answer) else found
        if path not in told:
            told.add(path)
            yield found


def _all(paths: Iterable[bytes]) -> Iterator[Found]:
    for path in paths:
        if os.path.isdir(path):
            yield from _in_folder(os.path.realpath(path))
        else:
            yield _as_file(_absolute(path))


def _absolute(path: bytes) -> bytes:
    """Links on the way are resolved, since ".." behind one leads elsewhere; the last name stays."""
    folder, name = os.path.split(path)
    return os.path.join(os.path.realpath(folder), name)


def _in_folder(folder: bytes) -> Iterator[Found]:
    is_empty = True
    for found in _walk(folder):
        is_empty = False
        yield found
    if is_empty:
        yield empty_folder(folder)


def _walk(top: bytes) -> Iterator[Found]:
    folders = [top]
    while folders:
        folder = folders.pop()
        try:
            entries = _entries(folder)
            inner = [entry.path for entry in entries if entry.is_dir(follow_symlinks=False)]
        except OSError as error:
            yield unchecked(folder, f"cannot read this folder: {error.strerror}")
            continue
        folders.extend(reversed(inner))
        yield from _files(entries)


def _entries(folder: bytes) -> list["os.DirEntry[bytes]"]:
    with os.scandir(folder) as entries:
        return sorted(entries, key=lambda entry: entry.name)


def _files(entries: Iterable["os.DirEntry[bytes]"]) -> Iterator[Found]:
    """Folders are left out, and links to them."""
    for entry in entries:
        if _is_pst(entry.name) and not os.path.isdir(entry.path):
            yield _as_file(entry.path)


def _is_pst(name: bytes) -> bool:
    stem, extension = name[:-4], name[-4:]
    return stem != b"" and extension.lower() == b".pst"


def _as_file(path: bytes) -> Found:
    """A pipe or a device is not opened: a read of it need not end."""
    try:
        mode = os.stat(path).st_mode
    except OSError:
        return path  # The command line says why it cannot be read.
    if stat.S_ISREG(mode):
        return path
    return unchecked(path, "it is no plain file")

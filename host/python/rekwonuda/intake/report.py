"""The report: a file with a line for each file that was checked."""

import fcntl
import os
import stat
import tempfile
from contextlib import suppress
from typing import BinaryIO, Optional

from rekwonuda.intake.answers import BEGINNING, Answer, Outcome, read_answer
from rekwonuda.intake.stopped import Stopped


class Report:
    """A report that no other run writes to while this one does."""

    def __init__(self, path: bytes) -> None:
        """Opens the report there, or a new one.

        Lines of files that are to be tried again are taken out, and so is a line that was cut short.
        """
        path = os.path.realpath(path)
        if os.path.exists(path) and not os.path.isfile(path):
            raise Stopped("cannot write the report: it is no plain file")
        try:
            self._stream = _locked(path)
            self._earlier, dropped = _read(self._stream)
            if dropped:
                self._stream = _replaced(path, self._stream, dropped)
        except OSError as error:
            raise Stopped(f"cannot write the report: {error.strerror}") from error

    def earlier(self, path: bytes) -> Optional[Outcome]:
        """How the check of a file ended in an earlier run, where that is not tried again."""
        return self._earlier.get(path)

    def add(self, answer: Answer) -> None:
        """Writes a line at the end, to be seen at once."""
        left = answer.line
        try:
            while left:
                left = left[os.write(self._stream.fileno(), left) :]
        except OSError as error:
            raise Stopped(f"cannot write the report: {error.strerror}") from error

    def close(self) -> None:
        self._stream.close()


def _locked(path: bytes) -> BinaryIO:
    """Another run may replace the file before it is locked: then it is opened again."""
    while True:
        stream = open(path, "a+b")
        try:
            fcntl.flock(stream, fcntl.LOCK_EX | fcntl.LOCK_NB)
        except BlockingIOError:
            raise Stopped("another run is writing to this report") from None
        if os.path.samestat(os.fstat(stream.fileno()), os.stat(path)):
            return stream


def _read(stream: BinaryIO) -> tuple[dict[bytes, Outcome], set[int]]:
    """The files that need no further check, and the numbers of the lines to take out."""
    earlier: dict[bytes, Outcome] = {}
    dropped: set[int] = set()
    stream.seek(0)
    for number, line in enumerate(stream, 1):
        if _is_cut_short(line):
            dropped.add(number)
            continue
        try:
            answer = read_answer(line)
        except ValueError as error:
            raise Stopped(f"this is no report: line {number}: {error}") from error
        if answer.outcome.is_final:
            earlier[answer.path] = answer.outcome
        else:
            dropped.add(number)
    return earlier, dropped


def _is_cut_short(line: bytes) -> bool:
    """Of a last line that begins as every line does: nothing else is taken for one."""
    if line.endswith(b"\n"):
        return False
    return line.startswith(BEGINNING) or BEGINNING.startswith(line)


def _replaced(path: bytes, stream: BinaryIO, dropped: set[int]) -> BinaryIO:
    """Writes the other lines to a new file, locks it and puts it in place, so that none is ever lost."""
    folder, name = os.path.split(path)
    descriptor, fresh_path = tempfile.mkstemp(dir=folder, prefix=name + b".")
    fresh = os.fdopen(descriptor, "w+b")
    try:
        fcntl.flock(fresh, fcntl.LOCK_EX | fcntl.LOCK_NB)
        os.fchmod(descriptor, stat.S_IMODE(os.fstat(stream.fileno()).st_mode))
        stream.seek(0)
        kept = (line for number, line in enumerate(stream, 1) if number not in dropped)
        fresh.writelines(kept)
        fresh.flush()
        os.fsync(descriptor)
        os.replace(fresh_path, path)
    except BaseException:
        with suppress(OSError):
            os.unlink(fresh_path)
        raise
    stream.close()
    return fresh

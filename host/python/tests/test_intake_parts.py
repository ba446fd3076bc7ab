"""Parts of the fleet check: files under way on a cluster that follows a script, the search, the report."""

import fcntl
import os
from collections.abc import Callable, Iterator
from contextlib import closing
from itertools import count, islice
from pathlib import Path
from typing import Any, Union, cast

import pytest
from distributed import KilledWorker

from rekwonuda.intake.answers import Answer, Outcome, empty_folder, read_answer, unchecked
from rekwonuda.intake.cluster import Future
from rekwonuda.intake.fleet import PER_THREAD, Fleet
from rekwonuda.intake.report import Report
from rekwonuda.intake.search import search
from rekwonuda.intake.stopped import Stopped
from rekwonuda.intake.tally import Tally
from rekwonuda.intake.worker import run_check

KILLED = KilledWorker("check", cast(Any, None), 0)
End = Union[bytes, BaseException]


def accepted(path: bytes) -> Answer:
    text = f'"file":"{path.decode()}","refusals":[],"outcome":"accepted","status":0'
    return read_answer(b'{"version":1,"command":"check",' + text.encode() + b"}\n")


class ScriptedFuture:
    """A check that has ended, as the script says; where it has several ends, they are met in turn."""

    def __init__(self, key: str, ends: list[End]) -> None:
        self.key = key
        self._ends = ends

    def result(self, timeout: float) -> tuple[bytes, str]:
        end = self._ends.pop(0)
        if isinstance(end, bytes):
            return end, "it ended"
        raise end

    def add_done_callback(self, call: Callable[[Future], None]) -> None:
        call(self)


class ScriptedClient:
    """A cluster of two threads. Files that the script does not name are accepted."""

    def __init__(self, script: dict[bytes, list[End]], threads: int = 2) -> None:
        self._script = script
        self._threads = threads
        self.submitted: list[bytes] = []

    def submit(self, call: Callable[..., tuple[bytes, str]], *words: object, pure: bool) -> ScriptedFuture:
        assert not pure, "each check has a key of its own"
        path = words[1]
        assert isinstance(path, bytes)
        self.submitted.append(path)
        ends = self._script.get(path) or [accepted(path).line]
        return ScriptedFuture(str(len(self.submitted)), ends)

    def nthreads(self, callback_timeout: float) -> dict[str, int]:
        return {"worker": self._threads} if self._threads else {}


def test_only_so_many_files_are_under_way() -> None:
    """Any number can be named: the next file is looked for when one has ended."""
    asked = 0

    def names() -> Iterator[bytes]:
        nonlocal asked
        for asked in count(1):
            yield b"/%d" % asked

    answers = Fleet(ScriptedClient({}), None, 1).answers(names())
    for ended, answer in enumerate(islice(answers, 100)):
        assert answer == accepted(b"/%d" % (ended + 1))
        assert asked - ended == 2 * PER_THREAD


def test_a_file_that_shared_a_worker_with_a_deadly_one_is_checked_alone() -> None:
    """Of both Dask says that their workers died; what each does alone tells which was at fault."""
    client = ScriptedClient({
        b"/innocent": [KILLED, accepted(b"/innocent").line],
        b"/deadly": [KILLED, KILLED],
    })
    names = [b"/innocent", b"/deadly", *(b"/%d" % number for number in range(9))]
    answers = list(Fleet(client, None, 1).answers(names))
    assert client.submitted == [*names, b"/innocent", b"/deadly"], "at the end"
    died = unchecked(b"/deadly", "not checked: the workers that had this file died")
    assert answers == [*map(accepted, names[2:]), accepted(b"/innocent"), died]


def test_an_answer_that_died_with_its_worker_is_waited_for() -> None:
    client = ScriptedClient({b"/a": [TimeoutError(), TimeoutError(), accepted(b"/a").line]})
    assert list(Fleet(client, None, 1).answers([b"/a", b"/b"])) == [accepted(b"/b"), accepted(b"/a")]
    assert client.submitted == [b"/a", b"/b"]


def test_a_worker_that_cannot_take_the_check_costs_a_line() -> None:
    client = ScriptedClient({b"/a": [ImportError("no such module")]})
    answers = list(Fleet(client, None, 1).answers([b"/a", b"/b"]))
    assert answers == [unchecked(b"/a", "not checked: no such module"), accepted(b"/b")]


def test_a_cluster_without_threads_is_given_up() -> None:
    with pytest.raises(Stopped, match="there was no worker for 0.2 seconds"):
        next(Fleet(ScriptedClient({}, threads=0), None, 0.2).answers([b"/a"]))


def test_a_connection_that_is_lost_stops_the_run() -> None:
    client = ScriptedClient({b"/a": [ConnectionResetError()]})
    with pytest.raises(Stopped, match="the scheduler is gone"):
        next(Fleet(client, None, 1).answers([b"/a"]))


def test_every_line_that_is_written_can_be_read() -> None:
    """A message may quote a name that is no text, and the path may be of any bytes."""
    for answer in (unchecked(b"/a", "no \udcff \n here"), unchecked(b"/\xff\n", "why"), empty_folder(b"/")):
        assert read_answer(answer.line) == answer


def test_a_line_of_any_depth_is_no_answer() -> None:
    depth = 100_000
    with pytest.raises(ValueError):
        read_answer(b'{"version":1,"command":"check","file":' + b"[" * depth + b"]" * depth + b"}\n")


def test_of_several_files_the_worst_counts() -> None:
    tally = Tally()
    statuses = [tally.status()]
    for outcome in (Outcome.ABSENT, Outcome.NOT_COVERED, Outcome.DAMAGED, Outcome.ERROR, Outcome.ACCEPTED):
        tally.count(outcome, earlier=outcome is Outcome.DAMAGED)
        statuses.append(tally.status())
    assert statuses == [0, 3, 4, 1, 2, 2]


def test_a_folder_that_cannot_be_read_is_told(tmp_path: Path, monkeypatch: pytest.MonkeyPatch) -> None:
    """And the others are searched on."""
    scan = os.scandir

    def vanished(folder: bytes) -> Any:
        if folder.endswith(b"/gone"):
            raise FileNotFoundError(2, "No such file or directory")
        return scan(folder)

    for name in ("before", "gone", "later"):
        (tmp_path / name).mkdir()
        (tmp_path / name / "a.pst").touch()
    monkeypatch.setattr(os, "scandir", vanished)
    top = os.path.realpath(os.fsencode(tmp_path))
    gone = unchecked(top + b"/gone", "cannot read this folder: No such file or directory")
    assert list(search([top])) == [top + b"/before/a.pst", gone, top + b"/later/a.pst"]


def test_lines_that_are_tried_again_are_taken_out(tmp_path: Path) -> None:
    """Errors, and folders in which nothing was found. Lines of later runs come behind the others."""
    path = tmp_path / "report"
    lines = [accepted(b"/a"), unchecked(b"/b", "why"), accepted(b"/c"), empty_folder(b"/d")]
    path.write_bytes(b"".join(answer.line for answer in lines) + b'{"ver')
    with closing(Report(os.fsencode(path))) as report:
        assert report.earlier(b"/a") == lines[0].outcome
        assert [report.earlier(name) for name in (b"/b", b"/d", b"/e")] == [None, None, None]
        report.add(accepted(b"/e"))
        report.add(accepted(b"/\xc3\xa9"))
    kept = [accepted(name).line for name in (b"/a", b"/c", b"/e", b"/\xc3\xa9")]
    assert path.read_bytes() == b"".join(kept)
    assert os.listdir(tmp_path) == ["report"]


@pytest.mark.parametrize("content", [
    b"mail\n",
    b"mail",
    b"\n",
    b'{"version":1,"command":"check"}\n',
    accepted(b"/a").line + b'{"version":2,"command":"check"',
    accepted(b"/a").line.replace(b'"status":0', b'"status":1'),
    accepted(b"/a").line.replace(b"accepted", b"excepted"),
    accepted(b"/a").line.replace(b'"/a"', b"[]"),
])
def test_what_is_no_report_is_left_alone(tmp_path: Path, content: bytes) -> None:
    path = tmp_path / "report"
    path.write_bytes(content)
    with pytest.raises(Stopped, match="this is no report: line "):
        Report(os.fsencode(path))
    assert path.read_bytes() == content


def test_no_line_is_lost_where_the_report_cannot_be_replaced(
    tmp_path: Path, monkeypatch: pytest.MonkeyPatch
) -> None:
    def fail(*_: object) -> None:
        raise OSError(28, "No space left on device")

    path = tmp_path / "report"
    content = accepted(b"/a").line + unchecked(b"/b", "why").line
    path.write_bytes(content)
    monkeypatch.setattr(os, "fsync", fail)
    with pytest.raises(Stopped, match="cannot write the report: No space left on device"):
        Report(os.fsencode(path))
    assert path.read_bytes() == content
    assert os.listdir(tmp_path) == ["report"]


def test_a_report_that_is_replaced_stays_locked(tmp_path: Path) -> None:
    path = tmp_path / "report"
    path.write_bytes(unchecked(b"/b", "why").line)
    with closing(Report(os.fsencode(path))):
        with open(path) as other, pytest.raises(BlockingIOError):
            fcntl.flock(other, fcntl.LOCK_EX | fcntl.LOCK_NB)
        with pytest.raises(Stopped, match="another run is writing to this report"):
            Report(os.fsencode(path))


def test_a_report_that_is_replaced_before_it_is_locked_is_opened_again(
    tmp_path: Path, monkeypatch: pytest.MonkeyPatch
) -> None:
    """Else lines would go to a file that has no name any more."""
    path, fresh = tmp_path / "report", tmp_path / "fresh"
    path.touch()
    fresh.touch()
    lock = fcntl.flock

    def replace_and_lock(stream: int, way: int) -> None:
        if fresh.exists():
            fresh.replace(path)
        lock(stream, way)

    monkeypatch.setattr(fcntl, "flock", replace_and_lock)
    with closing(Report(os.fsencode(path))) as report:
        report.add(accepted(b"/a"))
    assert path.read_bytes() == accepted(b"/a").line


def test_a_report_is_a_plain_file(tmp_path: Path) -> None:
    os.mkfifo(tmp_path / "pipe")
    for name, why in (("pipe", "it is no plain file"), ("", "it is no plain file"), ("no/report", "No such")):
        with pytest.raises(Stopped, match=f"cannot write the report: {why}"):
            Report(os.fsencode(tmp_path / name))


def test_the_program_is_named_or_sought(tmp_path: Path, monkeypatch: pytest.MonkeyPatch) -> None:
    """By the caller, else by REKWONUDA_PROGRAM, else on the PATH, where the worker is."""
    for name in ("first", "second", "rekwonuda"):
        (tmp_path / name).write_text(f'#!/bin/sh\necho {name} "$@"\n')
        (tmp_path / name).chmod(0o755)
    first, second = str(tmp_path / "first"), str(tmp_path / "second")
    monkeypatch.setenv("PATH", str(tmp_path), prepend=":")
    monkeypatch.setenv("REKWONUDA_PROGRAM", second)
    assert run_check(first, b"/a") == (b"first check --json -- /a\n", f"{first} ended with status 0")
    assert run_check(None, b"/a")[0] == b"second check --json -- /a\n"
    monkeypatch.delenv("REKWONUDA_PROGRAM")
    assert run_check(None, b"/a")[0] == b"rekwonuda check --json -- /a\n"

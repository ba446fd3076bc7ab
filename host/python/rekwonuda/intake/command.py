"""The command `python3 -m rekwonuda.intake`."""

import argparse
import os
import signal
import sys
from collections.abc import Iterator, Sequence
from contextlib import closing
from itertools import chain
from typing import Optional

from rekwonuda.intake.answers import Answer
from rekwonuda.intake.report import Report
from rekwonuda.intake.search import search
from rekwonuda.intake.stopped import Stopped
from rekwonuda.intake.tally import Tally

NAME = "rekwonuda.intake"
# As a shell has it of a program that is interrupted.
INTERRUPTED = 130


def main(words: Optional[Sequence[str]] = None) -> int:
    """Checks the files that the words name, and hands back the exit status."""
    arguments = _parser().parse_intermixed_args(words)
    signal.signal(signal.SIGTERM, signal.default_int_handler)
    tally = Tally()
    try:
        with closing(Report(arguments.out)) as report:
            _run(arguments, report, tally)
    except Stopped as stopped:
        tally.clear()
        print(f"{NAME}: {stopped}", file=sys.stderr)
        return 2
    except KeyboardInterrupt:
        tally.clear()
        return INTERRUPTED
    tally.clear()
    print(tally.summary())
    return tally.status()


def _run(arguments: argparse.Namespace, report: Report, tally: Tally) -> None:
    waiting = _unchecked(arguments.paths, report, tally)
    first = next(waiting, None)
    if first is None:
        return
    # Dask takes its time to load, and is not needed where nothing is left to check.
    try:
        from rekwonuda.intake.cluster import connected
        from rekwonuda.intake.fleet import Fleet
    except ImportError as error:
        raise Stopped(f"{error}; it comes with Debian's python3-distributed") from error
    with connected(arguments.scheduler, arguments.wait) as client:
        fleet = Fleet(client, arguments.program, arguments.wait)
        for answer in fleet.answers(chain([first], waiting)):
            _tell(answer, report, tally)


def _unchecked(paths: Sequence[bytes], report: Report, tally: Tally) -> Iterator[bytes]:
    """The files that are left to check; what needs no check is told."""
    for found in search(paths):
        if isinstance(found, Answer):
            _tell(found, report, tally)
        elif (earlier := report.earlier(found)) is not None:
            tally.count(earlier, earlier=True)
        else:
            yield found


def _tell(answer: Answer, report: Report, tally: Tally) -> None:
    report.add(answer)
    tally.count(answer.outcome, earlier=False)


def _parser() -> argparse.ArgumentParser:
    parser = argparse.ArgumentParser(
        prog=f"python3 -m {NAME}",
        description="Checks any number of .pst files on Dask, and writes a line of JSON for each, as"
        " `rekwonuda check --json` prints it. A later run with the same report goes on where this one"
        " stopped.",
        epilog="The exit status is that of `rekwonuda check` for several files: the worst of all that"
        " are named counts, in the order 0, 3, 4, 1, 2. It is 2 too where the run cannot go on, and 130"
        " where it is interrupted.",
        allow_abbrev=False,
    )
    add = parser.add_argument
    add("paths", nargs="+", type=_path, metavar="PATH", help="a file, or a folder to search for *.pst")
    add("--out", required=True, type=_path, metavar="FILE", help="the report")
    add("--scheduler", metavar="ADDRESS", help="of a cluster; without it, this machine's processors")
    add(
        "--program",
        type=_program,
        metavar="PATH",
        help="the command line, where the workers are; without it, what REKWONUDA_PROGRAM names there,"
        " or rekwonuda on their PATH",
    )
    add(
        "--wait",
        type=_seconds,
        default=60.0,
        metavar="SECONDS",
        help="how long to wait for the scheduler, or for a worker where there is none (60)",
    )
    return parser


def _path(text: str) -> bytes:
    if not text:
        raise argparse.ArgumentTypeError("a path is not empty")
    return os.fsencode(text)


def _program(text: str) -> str:
    """A name without a slash is sought on the workers' PATH; workers have other working folders."""
    return os.path.abspath(text) if "/" in text else text


def _seconds(text: str) -> float:
    try:
        seconds = float(text)
    except ValueError:
        seconds = 0.0
    if not 0 < seconds < float("inf"):
        raise argparse.ArgumentTypeError("it is a number above 0")
    return seconds

"""Checks of files by the workers of a cluster."""

import queue
import time
from collections.abc import Iterable, Iterator
from concurrent.futures import CancelledError
from itertools import islice
from typing import Optional

import cloudpickle  # type: ignore[import]
from distributed import KilledWorker

from rekwonuda.intake import worker
from rekwonuda.intake.answers import Answer, read_answer, unchecked
from rekwonuda.intake.cluster import Client, Future
from rekwonuda.intake.stopped import Stopped

# Checks under way for each thread of the cluster, so that the next is there when one ends.
PER_THREAD = 2
# Seconds after which the cluster is looked at again.
LOOK = 1.0
# Seconds between two looks while there is no worker.
PAUSE = 0.1


class Fleet:
    """Hands files to the workers, and takes their answers."""

    def __init__(self, client: Client, program: Optional[str], wait: float) -> None:
        self._client = client
        self._program = program
        self._wait = wait
        self._under_way: dict[str, bytes] = {}
        self._ended: queue.SimpleQueue[Future] = queue.SimpleQueue()
        self._room = 0
        self._next_look = time.monotonic()
        # Workers need not have this package.
        cloudpickle.register_pickle_by_value(worker)

    def answers(self, paths: Iterable[bytes]) -> Iterator[Answer]:
        """The answer for each file, as its check ends.

        Where a worker dies, Dask gives all that it had to others, and after some deaths gives up. Which
        file was at fault is not known then, so each is checked once more at the end, alone.
        """
        doubtful = []
        for path, answer in self._checked(paths):
            if answer is None:
                doubtful.append(path)
            else:
                yield answer
        for path in doubtful:
            _, answer = next(self._checked([path]))
            yield answer or unchecked(path, "not checked: the workers that had this file died")

    def _checked(self, paths: Iterable[bytes]) -> Iterator[tuple[bytes, Optional[Answer]]]:
        """Each file and its answer; none where Dask gave it up."""
        waiting = iter(paths)
        while True:
            self._look()
            for path in islice(waiting, max(self._room - len(self._under_way), 0)):
                self._start(path)
            if not self._under_way:
                return
            yield self._next()

    def _start(self, path: bytes) -> None:
        future = self._client.submit(worker.run_check, self._program, path, pure=False)
        self._under_way[future.key] = path
        future.add_done_callback(self._ended.put)

    def _next(self) -> tuple[bytes, Optional[Answer]]:
        """Waits for the next check to end."""
        while True:
            self._look()
            try:
                future = self._ended.get(timeout=LOOK)
            except queue.Empty:
                continue
            path = self._under_way[future.key]
            try:
                answer = _answer(path, future)
            except TimeoutError:
                # The worker that had the answer died, and another one makes it again.
                future.add_done_callback(self._ended.put)
                continue
            del self._under_way[future.key]
            return path, answer

    def _look(self) -> None:
        """Learns from time to time how many threads there are; waits for a worker where there is none."""
        now = time.monotonic()
        if now < self._next_look:
            return
        while not (threads := self._threads()):
            if time.monotonic() > now + self._wait:
                raise Stopped(f"there was no worker for {self._wait:g} seconds")
            time.sleep(PAUSE)
        self._room = threads * PER_THREAD
        self._next_look = time.monotonic() + LOOK

    def _threads(self) -> int:
        try:
            return sum(self._client.nthreads(callback_timeout=self._wait).values())
        except OSError as error:
            raise Stopped("the scheduler is gone") from error


def _answer(path: bytes, future: Future) -> Optional[Answer]:
    """What came of a check that ended: none where its workers died."""
    try:
        printed, ending = future.result(timeout=LOOK)
    except KilledWorker:
        return None
    except TimeoutError:
        raise
    except (CancelledError, OSError) as error:
        raise Stopped("the scheduler is gone") from error
    except Exception as error:
        return unchecked(path, f"not checked: {error}")
    try:
        answer = read_answer(printed)
    except ValueError:
        answer = None
    if answer is None or answer.path != path:
        return unchecked(path, f"not checked: no answer for this file: {ending}")
    return answer

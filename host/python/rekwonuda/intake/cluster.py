"""The cluster that checks run on."""

import logging
import signal
from collections.abc import Callable, Iterator
from contextlib import ExitStack, contextmanager
from multiprocessing import resource_tracker
from tempfile import TemporaryDirectory
from typing import Optional, Protocol

import dask
import distributed
from dask.system import CPU_COUNT
from distributed.comm.addressing import resolve_address

from rekwonuda.intake.stopped import Stopped

# The servers for a browser listen to this machine alone, at a port of the system's choice.
LOOPBACK = "127.0.0.1:0"


class Future(Protocol):
    """What is used of a future of Dask, whose calls are not typed."""

    key: str

    def result(self, timeout: float) -> tuple[bytes, str]:
        ...

    def add_done_callback(self, call: "Callable[[Future], None]") -> None:
        ...


class Client(Protocol):
    """What is used of a client of Dask."""

    def submit(self, call: Callable[..., tuple[bytes, str]], *words: object, pure: bool) -> Future:
        ...

    def nthreads(self, callback_timeout: float) -> dict[str, int]:
        ...


@contextmanager
def connected(address: Optional[str], wait: float) -> Iterator[Client]:
    """A client of the scheduler there, or of a cluster on the processors of this machine."""
    # What Dask would say of workers and schedulers that are lost is said by lines and messages here.
    logging.disable(logging.ERROR)
    with ExitStack() as stack:
        stack.enter_context(dask.config.set({"distributed.comm.timeouts.connect": wait}))
        if address is None:
            address = stack.enter_context(_local_cluster()).scheduler_address
        yield stack.enter_context(_client(address, wait))


def _client(address: str, wait: float) -> distributed.Client:
    try:
        resolve_address(address)
        return distributed.Client(  # type: ignore[no-untyped-call]
            address, timeout=wait, set_as_default=False
        )
    except (OSError, ValueError) as error:
        raise Stopped(f"cannot reach the scheduler: {error}") from error


@contextmanager
def _local_cluster() -> Iterator[distributed.LocalCluster]:
    """One worker for each processor, which is started again where it dies."""
    with TemporaryDirectory(prefix="rekwonuda-intake-") as folder:
        with _uninterrupted():
            cluster = distributed.LocalCluster(  # type: ignore[no-untyped-call]
                n_workers=CPU_COUNT,
                threads_per_worker=1,
                dashboard_address=None,
                scheduler_kwargs={"dashboard_address": LOOPBACK},
                worker_dashboard_address=LOOPBACK,
                local_directory=folder,
                silence_logs=logging.CRITICAL,
            )
        with cluster:
            yield cluster


@contextmanager
def _uninterrupted() -> Iterator[None]:
    """Threads and processes that are started here, and those that they start, take no interrupt.

    A terminal sends it to all of them, and it is this process that ends the others.
    """
    # Python starts this process of its own with the first other one, and would let interrupts in again.
    resource_tracker.ensure_running()
    before = signal.pthread_sigmask(signal.SIG_BLOCK, [signal.SIGINT])
    try:
        yield
    finally:
        signal.pthread_sigmask(signal.SIG_SETMASK, before)

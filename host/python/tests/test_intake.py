"""The fleet check, run as a user runs it: against a scheduler with two workers, and on this machine."""

import json
import os
import signal
import subprocess
import sys
import time
from collections import Counter
from collections.abc import Callable, Iterator
from contextlib import ExitStack, contextmanager, suppress
from dataclasses import dataclass
from pathlib import Path
from typing import Any

import psutil  # type: ignore[import]
import pytest
from distributed import Client

# Of Dask's own client in this process.
pytestmark = pytest.mark.filterwarnings("ignore:make_current is deprecated")

ROOT = Path(__file__).parents[3]
PACKAGES = ROOT / "host/python"
OFFICE = (ROOT / "samples/office.pst").read_bytes()
SMALL = (ROOT / "samples/small-office.pst").read_bytes()
# A name that is not UTF-8.
ODD = b"\xff\xc3(.pst"
# Seconds after which what is waited for is taken as failed.
LIMIT = 60

# What the stand-in does with a file goes by the file's name; then it is the command line.
STAND_IN = """#!/bin/sh
printf '%s\\n' "$4" >> "{folder}/runs"
case $4 in
*/held.pst)
    echo $PPID > "{folder}/holder.new"
    mv "{folder}/holder.new" "{folder}/holder"
    tries=0
    until [ -e "{folder}/go" ] || [ $tries -ge 1200 ]; do
        sleep 0.05
        tries=$((tries + 1))
    done ;;
*/vanishing.pst) [ -e "{folder}/go" ] || rm "$4" ;;
*/deadly.pst) kill -9 $PPID ;;
*/silent.pst) exit 0 ;;
*/crashing.pst) kill -9 $$ ;;
*/other.pst) exec "{program}" check --json -- /another.pst ;;
*/double.pst) "{program}" "$@" ;;
*/babbling.pst) echo 'no JSON' && exit 0 ;;
esac
exec "{program}" "$@"
"""


def until(condition: Callable[[], object], what: str) -> None:
    """Waits for a condition."""
    end = time.monotonic() + LIMIT
    while not condition():
        assert time.monotonic() < end, f"waited in vain: {what}"
        time.sleep(0.02)


@contextmanager
def started(
    words: list[str], folder: Path, output: int, **surroundings: str
) -> Iterator["subprocess.Popen[bytes]"]:
    """A process in a session of its own, which is ended at the latest here."""
    environment = {name: value for name, value in os.environ.items() if name != "PYTHONPATH"}
    process = subprocess.Popen(
        words,
        cwd=folder,
        env=environment | surroundings,
        start_new_session=True,
        stdout=output,
        stderr=output,
    )
    try:
        yield process
    finally:
        process.kill()
        process.communicate()


@dataclass
class Stage:
    """A folder with mail in it, and a stand-in for the command line."""

    folder: Path
    program: str

    def __post_init__(self) -> None:
        self.mail.mkdir()
        text = STAND_IN.format(folder=self.folder, program=self.program)
        self.stand_in.write_text(text)
        self.stand_in.chmod(0o755)

    @property
    def mail(self) -> Path:
        return self.folder / "mail"

    @property
    def stand_in(self) -> Path:
        return self.folder / "stand-in"

    @property
    def report(self) -> Path:
        return self.folder / "report.jsonl"

    def put(self, *names: str, content: bytes = OFFICE) -> None:
        for name in names:
            (self.mail / name).write_bytes(content)

    def words(self, *more: str) -> list[str]:
        words = [sys.executable, "-m", "rekwonuda.intake", "--out", str(self.report)]
        return [*words, "--program", str(self.stand_in), *more]

    @contextmanager
    def begun(self, *more: str, **surroundings: str) -> Iterator["subprocess.Popen[bytes]"]:
        """A run that is under way."""
        surroundings |= {"PYTHONPATH": str(PACKAGES), "TMPDIR": str(self.folder)}
        with started(self.words(*more), self.folder, subprocess.PIPE, **surroundings) as run:
            yield run

    def run(self, *more: str, **surroundings: str) -> tuple[int, str, str]:
        """The exit status of a whole run, its standard output and its standard error."""
        with self.begun(*more, **surroundings) as run:
            out, errors = run.communicate(timeout=LIMIT)
        return run.returncode, out.decode(), errors.decode()

    def lines(self) -> list[bytes]:
        return self.report.read_bytes().splitlines(keepends=True)

    def answers(self) -> dict[str, dict[str, Any]]:
        """The answer for each file, by its name; no file has two."""
        answers = [json.loads(line) for line in self.lines()]
        named = {Path(answer["file"]).name: answer for answer in answers}
        assert len(named) == len(answers)
        return named

    def printed(self, path: Path) -> bytes:
        """What the command line itself prints of a file."""
        words = [self.program, "check", "--json", "--", str(path)]
        return subprocess.run(words, stdout=subprocess.PIPE).stdout

    def expected(self) -> Counter[bytes]:
        """What the report is to have: the line of each file of the folder, in any order."""
        return Counter(self.printed(path) for path in self.mail.iterdir())

    def runs(self) -> Counter[str]:
        """How often the stand-in was run for each file."""
        names = (self.folder / "runs").read_text().splitlines()
        return Counter(Path(name).name for name in names)

    def holder(self) -> int:
        """The process that waits for the check of held.pst."""
        until((self.folder / "holder").exists, "the check of held.pst to begin")
        return int((self.folder / "holder").read_text())

    def go(self) -> None:
        """Lets the check of held.pst go on, and vanishing.pst stay."""
        (self.folder / "go").touch()


@pytest.fixture(scope="module", autouse=True)
def interruptible() -> None:
    """A shell has what runs in its background ignore interrupts, and all that this starts would too."""
    signal.signal(signal.SIGINT, signal.default_int_handler)


@pytest.fixture(scope="session")
def program() -> str:
    """The command line, which REKWONUDA_PROGRAM names."""
    return str(Path(os.environ["REKWONUDA_PROGRAM"]).absolute())


@pytest.fixture
def stage(tmp_path: Path, program: str) -> Iterator[Stage]:
    stage = Stage(tmp_path, program)
    yield stage
    stage.go()


@dataclass
class Cluster:
    address: str
    scheduler: "subprocess.Popen[bytes]"
    workers: list["subprocess.Popen[bytes]"]


@contextmanager
def clustered(folder: Path, workers: int) -> Iterator[Cluster]:
    """A scheduler and workers of one thread each, which do not find the package."""
    told = folder / "scheduler.json"
    local = ["--host", "127.0.0.1", "--dashboard-address", "127.0.0.1:0", "--no-dashboard"]
    python = [sys.executable, "-m"]
    with ExitStack() as stack:
        words = [*python, "distributed.cli.dask_scheduler", "--port", "0", *local]
        words += ["--scheduler-file", str(told)]
        scheduler = stack.enter_context(started(words, folder, subprocess.DEVNULL))
        until(lambda: told.exists() and told.read_text().endswith("}"), "the scheduler to start")
        address = json.loads(told.read_text())["address"]
        words = [*python, "distributed.cli.dask_worker", address, *local]
        words += ["--no-nanny", "--nthreads", "1", "--local-directory", str(folder)]
        processes = []
        for _ in range(workers):
            processes.append(stack.enter_context(started(words, folder, subprocess.DEVNULL)))
        with Client(address, set_as_default=False) as client:  # type: ignore[no-untyped-call]
            until(lambda: len(client.nthreads()) == workers, "the workers to be there")
        yield Cluster(address, scheduler, processes)


@pytest.fixture(scope="module")
def cluster(tmp_path_factory: pytest.TempPathFactory) -> Iterator[Cluster]:
    """A cluster that tests leave as it is."""
    with clustered(tmp_path_factory.mktemp("cluster"), workers=2) as cluster:
        yield cluster


def flipped(sample: bytes, place: int) -> bytes:
    """A copy with one byte changed."""
    return sample[:place] + bytes([sample[place] ^ 0xFF]) + sample[place + 1 :]


def fill(stage: Stage, copies: int) -> None:
    """Both samples, and damaged copies of each with a byte changed in one place or another."""
    stage.put("sound.pst")
    stage.put("sound-small.pst", content=SMALL)
    for number in range(copies):
        sample = (OFFICE, SMALL)[number % 2]
        place = number * len(sample) // copies
        stage.put(f"spoilt-{number:02}.PST", content=flipped(sample, place))


def error_line(path: Path, message: str) -> bytes:
    """The line of a file that could not be checked, in the shape of the command line's own."""
    return (
        f'{{"version":1,"command":"check","file":"{path}","message":"{message}",'
        '"refusals":[],"outcome":"error","status":2}\n'
    ).encode()


def test_an_error_line_has_the_shape_of_the_command_lines_own(stage: Stage) -> None:
    path = stage.mail / "absent.pst"
    why = f"cannot read {path}: No such file or directory (os error 2)"
    assert stage.printed(path) == error_line(path, why)


def test_a_worker_that_is_killed_costs_no_line(stage: Stage, tmp_path: Path) -> None:
    fill(stage, copies=40)
    stage.put("held.pst")
    with clustered(tmp_path, workers=2) as cluster:
        with stage.begun("mail", "--scheduler", cluster.address) as run:
            holder = stage.holder()
            until(lambda: len(stage.lines()) >= 10, "the other worker to go on")
            killed = [worker for worker in cluster.workers if worker.pid == holder]
            assert len(killed) == 1, "the worker checks the file itself"
            os.kill(holder, signal.SIGKILL)
            assert killed[0].wait(LIMIT) == -signal.SIGKILL
            assert len(stage.lines()) < 43, "it died during the run"
            stage.go()
            out, errors = run.communicate(timeout=LIMIT)
    assert (run.returncode, errors) == (1, b"")
    assert out.startswith(b"43 files: ") and b" 0 error" in out
    assert Counter(stage.lines()) == stage.expected()
    assert stage.runs()["held.pst"] == 2, "once by each worker"


def test_without_an_address_this_machine_checks(stage: Stage) -> None:
    fill(stage, copies=12)
    before = {*os.listdir(stage.folder), "report.jsonl", "runs"}
    status, out, errors = stage.run("mail")
    assert (status, errors) == (1, "")
    assert Counter(stage.lines()) == stage.expected()
    outcomes = Counter(answer["outcome"] for answer in stage.answers().values())
    accepted, damaged = outcomes["accepted"], outcomes["damaged"]
    assert accepted >= 2 and damaged >= 6, "the samples are sound, most copies are not"
    covered = 14 - accepted - damaged
    assert out == f"14 files: {accepted} accepted, {damaged} damaged, {covered} not covered, 0 error\n"
    assert set(os.listdir(stage.folder)) == before, "nothing else is left behind"


def test_a_file_that_vanishes_costs_its_own_line(stage: Stage, cluster: Cluster) -> None:
    stage.put("a.pst", "vanishing.pst", "z.pst")
    status, out, errors = stage.run("mail", "mail/absent.pst", "--scheduler", cluster.address)
    assert (status, errors) == (2, "")
    assert out == "4 files: 2 accepted, 0 damaged, 0 not covered, 2 error\n"
    gone = [stage.printed(stage.mail / name) for name in ("vanishing.pst", "absent.pst")]
    assert b"No such file or directory" in gone[0]
    assert Counter(stage.lines()) == stage.expected() + Counter(gone)


def test_a_file_that_kills_its_workers_costs_its_own_line(stage: Stage) -> None:
    """At the first death Dask gives up all that the worker had, whichever file was at fault."""
    fill(stage, copies=8)
    path = stage.mail / "deadly.pst"
    stage.put(path.name)
    surroundings = {"DASK_DISTRIBUTED__SCHEDULER__ALLOWED_FAILURES": "0"}
    status, out, _ = stage.run("mail", **surroundings)
    assert status == 2 and " 1 error\n" in out
    path.unlink()
    died = "not checked: the workers that had this file died"
    assert Counter(stage.lines()) == stage.expected() + Counter([error_line(path, died)])


def test_what_is_no_answer_for_the_file_costs_its_own_line(stage: Stage, cluster: Cluster) -> None:
    endings = {
        "silent.pst": "ended with status 0",
        "babbling.pst": "ended with status 0",
        "other.pst": "ended with status 2",
        "double.pst": "ended with status 0",
        "crashing.pst": "was ended by signal 9",
    }
    stage.put("sound.pst", *endings)
    status, out, errors = stage.run("mail", "--scheduler", cluster.address)
    assert (status, errors) == (2, "")
    assert out == "6 files: 1 accepted, 0 damaged, 0 not covered, 5 error\n"
    expected = [stage.printed(stage.mail / "sound.pst")]
    for name, ending in endings.items():
        why = f"not checked: no answer for this file: {stage.stand_in} {ending}"
        expected.append(error_line(stage.mail / name, why))
    assert Counter(stage.lines()) == Counter(expected)


def test_a_program_that_is_missing_is_told_of_each_file(stage: Stage, cluster: Cluster) -> None:
    stage.put("a.pst", "b.pst")
    stage.stand_in.unlink()
    status, _, errors = stage.run("mail", "--scheduler", cluster.address)
    assert (status, errors) == (2, "")
    ending = f"{stage.stand_in} cannot be started: No such file or directory"
    why = f"not checked: no answer for this file: {ending}"
    expected = [error_line(stage.mail / name, why) for name in ("a.pst", "b.pst")]
    assert Counter(stage.lines()) == Counter(expected)


def test_a_rerun_goes_on_where_it_stopped(stage: Stage, cluster: Cluster) -> None:
    """What was cut short, what ended in an error and what is new is checked, and nothing else."""
    fill(stage, copies=6)
    stage.put("vanishing.pst")
    stage.run("mail", "--scheduler", cluster.address)
    error, *others = sorted(stage.lines(), key=lambda line: b"vanishing.pst" not in line)
    kept, cut = others[:-1], others[-1]
    stage.report.write_bytes(b"".join([kept[0], error, *kept[1:], cut[:-9]]))
    stage.report.chmod(0o640)
    stage.put("vanishing.pst", "new.pst")
    stage.go()
    (stage.folder / "runs").unlink()
    status, out, errors = stage.run("mail", "--scheduler", cluster.address)
    assert (status, errors) == (1, "")
    assert out.startswith("10 files: ") and out.endswith("; 7 checked by an earlier run\n")
    cut_name = Path(json.loads(cut)["file"]).name
    assert stage.runs() == Counter([cut_name, "vanishing.pst", "new.pst"])
    assert stage.lines()[:7] == kept, "earlier lines stay as they are"
    assert Counter(stage.lines()) == stage.expected()
    assert stage.report.stat().st_mode & 0o777 == 0o640


def test_a_rerun_with_nothing_left_needs_no_cluster(stage: Stage, cluster: Cluster) -> None:
    stage.put("sound.pst")
    stage.run("mail", "--scheduler", cluster.address)
    before = stage.report.read_bytes()
    status, out, errors = stage.run("mail", "--scheduler", "127.0.0.1:1", "--wait", "1")
    assert (status, errors) == (0, "")
    assert out == "1 file: 1 accepted, 0 damaged, 0 not covered, 0 error; 1 checked by an earlier run\n"
    assert stage.report.read_bytes() == before


def test_the_status_of_a_rerun_counts_earlier_lines(stage: Stage, cluster: Cluster) -> None:
    """Those of the files that are named, and no others."""
    stage.put("sound.pst")
    stage.put("spoilt.pst", content=flipped(OFFICE, 100))
    everything = stage.run("mail", "--scheduler", cluster.address)[0]
    sound = stage.run("mail/sound.pst")[0]
    again = stage.run("mail")[0]
    assert (everything, sound, again) == (1, 0, 1)


def test_two_runs_do_not_share_a_report(stage: Stage, cluster: Cluster) -> None:
    stage.put("held.pst")
    with stage.begun("mail", "--scheduler", cluster.address) as first:
        stage.holder()
        second = stage.run("mail", "--scheduler", cluster.address)
        stage.go()
        first.communicate(timeout=LIMIT)
    assert second == (2, "", "rekwonuda.intake: another run is writing to this report\n")
    assert first.returncode == 0
    assert Counter(stage.lines()) == stage.expected()


@pytest.mark.parametrize("ending", [signal.SIGKILL, signal.SIGTERM])
def test_a_scheduler_that_is_gone_stops_the_run(
    stage: Stage, cluster: Cluster, tmp_path: Path, ending: signal.Signals
) -> None:
    """What was told stays, and a rerun on another cluster goes on."""
    fill(stage, copies=4)
    stage.put("held.pst")
    with clustered(tmp_path, workers=2) as lost:
        with stage.begun("mail", "--scheduler", lost.address, "--wait", "2") as run:
            stage.holder()
            until(lambda: len(stage.lines()) == 6, "the other files to be checked")
            lost.scheduler.send_signal(ending)
            out, errors = run.communicate(timeout=LIMIT)
        stage.go()
    assert (run.returncode, out) == (2, b"")
    assert errors == b"rekwonuda.intake: the scheduler is gone\n"
    assert stage.run("mail", "--scheduler", cluster.address)[0] == 1
    assert Counter(stage.lines()) == stage.expected()
    assert stage.runs() == Counter({path.name: 1 for path in stage.mail.iterdir()}) + Counter(["held.pst"])


def test_a_cluster_without_a_worker_stops_the_run(stage: Stage, tmp_path: Path) -> None:
    stage.put("sound.pst")
    with clustered(tmp_path, workers=0) as cluster:
        ended = stage.run("mail", "--scheduler", cluster.address, "--wait", "0.5")
    assert ended == (2, "", "rekwonuda.intake: there was no worker for 0.5 seconds\n")
    assert stage.lines() == []


def test_a_scheduler_that_is_not_there_stops_the_run(stage: Stage) -> None:
    stage.put("sound.pst")
    for address in ("127.0.0.1:1", "nonsense://127.0.0.1:1"):
        status, out, errors = stage.run("mail", "--scheduler", address, "--wait", "0.5")
        assert (status, out) == (2, "")
        assert errors.startswith("rekwonuda.intake: cannot reach the scheduler: ")
        assert errors.count("\n") == 1


def test_a_machine_without_dask_is_told_what_to_install(stage: Stage) -> None:
    stage.put("sound.pst")
    (stage.folder / "dask.py").write_text('raise ImportError("no Dask here")')
    message = "rekwonuda.intake: no Dask here; it comes with Debian's python3-distributed\n"
    assert stage.run("mail") == (2, "", message)


def test_an_interrupt_ends_the_run_quietly(stage: Stage, cluster: Cluster) -> None:
    """It goes to all processes of the session, as from a terminal, and a rerun goes on."""
    fill(stage, copies=4)
    stage.put("held.pst")
    with stage.begun("mail") as run:
        stage.holder()
        until(lambda: len(stage.lines()) == 6, "the other files to be checked")
        os.killpg(run.pid, signal.SIGINT)
        stage.go()
        out, errors = run.communicate(timeout=LIMIT)
    assert (run.returncode, out, errors) == (130, b"", b"")
    assert len(stage.lines()) == 6
    assert stage.run("mail", "--scheduler", cluster.address)[0] == 1
    assert Counter(stage.lines()) == stage.expected()


def test_on_this_machine_nothing_listens_to_others(stage: Stage) -> None:
    stage.put("held.pst")
    with stage.begun("mail") as run:
        stage.holder()
        process = psutil.Process(run.pid)
        connections = []
        for member in [process, *process.children(recursive=True)]:
            with suppress(psutil.NoSuchProcess):
                connections += member.connections("inet")
        stage.go()
        run.communicate(timeout=LIMIT)
    listening = [connection.laddr.ip for connection in connections if connection.status == "LISTEN"]
    assert len(listening) > 2 and set(listening) == {"127.0.0.1"}


def test_names_may_be_of_any_bytes(stage: Stage, cluster: Cluster) -> None:
    names = [b"-o.pst", b"two words.pst", b"line\nbreak.pst", b'quote".pst', b"\xc3\xa9.pst", ODD]
    stage.put(*map(os.fsdecode, names))
    status, out, errors = stage.run("mail", "--scheduler", cluster.address)
    assert (status, errors) == (0, "")
    assert Counter(stage.lines()) == stage.expected()
    assert ODD.hex().encode() in stage.report.read_bytes()
    assert stage.run("mail")[1] == out[:-1] + "; 6 checked by an earlier run\n"


def mixed(stage: Stage) -> None:
    """Files of every kind, and what would lead a careless search astray."""
    deep = stage.mail / "deep/deeper.pst"
    deep.mkdir(parents=True)
    stage.put("a.pst", "note.txt", ".pst", "deep/B.PST", "deep/deeper.pst/c.Pst")
    stage.put("bad.pst", content=flipped(OFFICE, 100))
    stage.put("empty.pst", content=b"")
    (deep / "up").symlink_to("..")
    (deep / "up.pst").symlink_to("../..")
    (deep / "link.pst").symlink_to("c.Pst")
    (stage.mail / "dangling.pst").symlink_to("nowhere")
    os.mkfifo(stage.mail / "pipe.pst")
    os.mkfifo(stage.mail / os.fsdecode(ODD))


def test_folders_are_searched_as_the_command_line_does(stage: Stage, cluster: Cluster) -> None:
    """Lines are the same too, but for what says why a pipe is not read."""
    mixed(stage)
    status, _, errors = stage.run("mail", "--scheduler", cluster.address)
    words = [stage.program, "check", "--json", str(stage.mail)]
    ended = subprocess.run(words, stdout=subprocess.PIPE)
    *expected, summary = ended.stdout.splitlines(keepends=True)
    assert (status, errors) == (ended.returncode, "")
    assert json.loads(summary)["summary"]["files"] == len(expected) == 9
    pipes = b"it is no plain file"
    plain = [Counter(line for line in lines if pipes not in line) for lines in (expected, stage.lines())]
    assert plain[0] == plain[1] and plain[0].total() == 7
    told = []
    for lines in (expected, stage.lines()):
        answers = [json.loads(line) for line in lines if pipes in line]
        messages = [answer.pop("message") for answer in answers]
        assert all(message.endswith("it is no plain file") for message in messages)
        told.append(sorted(answers, key=str))
    assert told[0] == told[1] and len(told[0]) == 2


def test_a_file_that_is_named_twice_has_one_line(stage: Stage, cluster: Cluster) -> None:
    """By whatever way its folder is named."""
    stage.put("a.pst")
    (stage.folder / "link").symlink_to("mail")
    names = ["mail/a.pst", "./mail//a.pst", "mail/../mail/a.pst", "link/a.pst", "mail", "link"]
    status, out, errors = stage.run(*names, "--scheduler", cluster.address)
    assert (status, errors) == (0, "")
    assert out == "1 file: 1 accepted, 0 damaged, 0 not covered, 0 error\n"
    assert Counter(stage.lines()) == stage.expected()


def test_every_outcome_is_counted(stage: Stage, cluster: Cluster) -> None:
    """And an empty folder has the line that the command line prints of it."""
    stage.put("sound.pst")
    (stage.mail / "folder").mkdir()
    with open(stage.mail / "long.pst", "wb") as stream:
        stream.truncate((1 << 30) + 1)
    stage.put("spoilt.pst", content=flipped(OFFICE, 100))
    named = ["mail", "mail/folder", "mail/absent.pst"]
    status, out, errors = stage.run(*named[:2], "--scheduler", cluster.address, *named[2:])
    assert (status, errors) == (2, "")
    counts = "1 accepted, 1 damaged, 1 not covered, 1 error"
    assert out == f"4 files: {counts}; no .pst file in 1 folder\n"
    empty = stage.printed(stage.mail / "folder").splitlines(keepends=True)[0]
    assert stage.lines().count(empty) == 1


@pytest.mark.parametrize("words", [
    ["mail"],
    ["--out", "report"],
    ["", "--out", "report"],
    ["mail", "--out", ""],
    ["mail", "--out", "report", "--wait", "0"],
    ["mail", "--out", "report", "--wait", "soon"],
])
def test_wrong_usage_is_told(stage: Stage, words: list[str]) -> None:
    whole = [sys.executable, "-m", "rekwonuda.intake", *words]
    with started(whole, stage.folder, subprocess.PIPE, PYTHONPATH=str(PACKAGES)) as run:
        out, errors = run.communicate(timeout=LIMIT)
    assert (run.returncode, out) == (2, b"")
    assert errors.startswith(b"usage: python3 -m rekwonuda.intake")
    assert not (stage.folder / "report").exists()


def test_progress_is_shown_on_a_terminal_alone(stage: Stage, cluster: Cluster) -> None:
    stage.put("sound.pst")
    seen, terminal = os.openpty()
    try:
        words = stage.words("mail", "--scheduler", cluster.address)
        surroundings = os.environ | {"PYTHONPATH": str(PACKAGES)}
        run = subprocess.run(
            words, cwd=stage.folder, env=surroundings, stdout=subprocess.PIPE, stderr=terminal, timeout=LIMIT
        )
        shown = os.read(seen, 4096)
    finally:
        os.close(seen)
        os.close(terminal)
    summary = b"1 file: 1 accepted, 0 damaged, 0 not covered, 0 error"
    assert (run.returncode, run.stdout) == (0, summary + b"\n")
    assert shown == b"\r" + summary + b"\x1b[K\r\x1b[K"

"""Answers of the command line: one line of JSON for a file, as docs/JSON.md describes it."""

import json
from dataclasses import dataclass
from enum import Enum

# How every line begins.
BEGINNING = b'{"version":1,"command":"check"'


class Outcome(Enum):
    """How a check ends, from good to bad: of several files the worst counts."""

    ACCEPTED = "accepted"
    ABSENT = "absent"
    NOT_COVERED = "not covered"
    DAMAGED = "damaged"
    ERROR = "error"

    @property
    def status(self) -> int:
        """The exit status."""
        return STATUSES[self]

    @property
    def is_final(self) -> bool:
        """Whether a later run leaves it at that."""
        return self not in (Outcome.ABSENT, Outcome.ERROR)


STATUSES = {
    Outcome.ACCEPTED: 0,
    Outcome.ABSENT: 3,
    Outcome.NOT_COVERED: 4,
    Outcome.DAMAGED: 1,
    Outcome.ERROR: 2,
}


@dataclass(frozen=True)
class Answer:
    """The line of a file."""

    path: bytes
    outcome: Outcome
    line: bytes


def read_answer(line: bytes) -> Answer:
    """Takes a line apart. One that is no answer raises ValueError."""
    if not line.startswith(BEGINNING) or line.find(b"\n") != len(line) - 1:
        raise ValueError("it is no line of a check")
    try:
        fields = json.loads(line)
        name, digits = fields["file"], fields.get("file_hex")
        path = name.encode() if digits is None else bytes.fromhex(digits)
        outcome = Outcome(fields["outcome"])
    except (AttributeError, KeyError, TypeError, RecursionError) as error:
        raise ValueError("it lacks what every check tells") from error
    if fields.get("status") != outcome.status:
        raise ValueError("its status is not that of its outcome")
    return Answer(path, outcome, line)


def unchecked(path: bytes, why: str) -> Answer:
    """The answer for a file or folder that could not be checked."""
    return _without_check(path, Outcome.ERROR, why)


def empty_folder(path: bytes) -> Answer:
    """The answer for a folder with no .pst file in it."""
    return _without_check(path, Outcome.ABSENT, "no .pst file in this folder")


def _without_check(path: bytes, outcome: Outcome, message: str) -> Answer:
    fields: dict[str, object] = {"version": 1, "command": "check"}
    fields["file"] = path.decode(errors="replace")
    if fields["file"] != path.decode(errors="surrogateescape"):
        fields["file_hex"] = path.hex()
    fields |= {"message": message, "refusals": []}
    fields |= {"outcome": outcome.value, "status": outcome.status}
    text = json.dumps(fields, ensure_ascii=False, separators=(",", ":"))
    return Answer(path, outcome, text.encode(errors="replace") + b"\n")

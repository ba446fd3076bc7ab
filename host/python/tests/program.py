"""The command line's answers, in JSON."""

import json
import os
import subprocess
from pathlib import Path
from typing import Any

from rekwonuda import Refusal

REPOSITORY = Path(__file__).resolve().parents[3]
SAMPLES = REPOSITORY / "samples"

MOST_SECONDS = 60


def answers(*arguments: object) -> list[dict[str, Any]]:
    """The lines that the command line writes, one for each file."""
    command = [os.environ["REKWONUDA_PROGRAM"], *map(str, arguments), "--json"]
    run = subprocess.run(command, capture_output=True, check=False, timeout=MOST_SECONDS)
    assert run.stderr == b""
    return [json.loads(line) for line in run.stdout.splitlines()]


def answer(*arguments: object) -> dict[str, Any]:
    """The one line that it writes."""
    [line] = answers(*arguments)
    return line


def refusals_of(line: dict[str, Any]) -> list[Refusal]:
    """The refusals of a line. Their words are the library's own, but for the length of a file, of which
    the command line says more."""
    refusals = []
    for told in line["refusals"]:
        refusal = Refusal(told["number"], int(told["place"]), int(told["more"]))
        if refusal.number != 1:
            assert refusal.words == told["meaning"]
        refusals.append(refusal)
    return refusals

"""What a worker does. It is sent there as it stands, so it uses nothing else of this package."""

import os
import subprocess
from typing import Optional


def run_check(program: Optional[str], path: bytes) -> tuple[bytes, str]:
    """What the command line prints of a file, and in words how it ended."""
    chosen = program or os.environ.get("REKWONUDA_PROGRAM") or "rekwonuda"
    words = [os.fsencode(chosen), b"check", b"--json", b"--", path]
    try:
        ended = subprocess.run(words, stdin=subprocess.DEVNULL, capture_output=True)
    except OSError as error:
        return b"", f"{chosen} cannot be started: {error.strerror}"
    if ended.returncode < 0:
        return ended.stdout, f"{chosen} was ended by signal {-ended.returncode}"
    return ended.stdout, f"{chosen} ended with status {ended.returncode}"

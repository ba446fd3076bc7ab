"""The example prints what it is said to print, and README shows it."""

import subprocess
import sys

from program import MOST_SECONDS, REPOSITORY, SAMPLES

EXAMPLE = REPOSITORY / "host" / "python" / "examples" / "message.py"

PRINTED = """\
0x0017  1
0x001a  16 bytes
0x0037  34 bytes
0x0039  8 bytes
0x0c1a  24 bytes
0x0e07  1
0x1000  110 bytes
0x1013  in subnode 0x813f
0x3fde  65001
"""


def test_the_example_prints_the_properties_of_a_message() -> None:
    command = [sys.executable, str(EXAMPLE), str(SAMPLES / "office.pst")]
    run = subprocess.run(command, capture_output=True, text=True, check=False, timeout=MOST_SECONDS)
    assert (run.returncode, run.stdout, run.stderr) == (0, PRINTED, "")


def test_readme_shows_the_example() -> None:
    readme = (REPOSITORY / "README.md").read_text(encoding="utf-8")
    assert f"```python\n{EXAMPLE.read_text(encoding='utf-8')}```\n" in readme

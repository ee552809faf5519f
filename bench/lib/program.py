"""The program `sr` of this checkout."""

import subprocess
import sys
from pathlib import Path

TOP = Path(__file__).resolve().parents[2]


def built_sr():
    """The path of `sr`, once it is built: a run of what isn't proved takes a minute, and shows nothing of its speed."""
    sr = TOP / "sr"
    if subprocess.run([sr, "build"]).returncode:
        sys.exit(2)
    return sr

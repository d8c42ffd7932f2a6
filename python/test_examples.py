"""The examples in Python and of several programs, and the pictures that stand in docs/."""

from __future__ import annotations

import os
import subprocess
import sys
import tempfile
from pathlib import Path

from jagged_testing import EngineCase
from jagged.program import REPOSITORY, command_of

EXAMPLES, DOCS = REPOSITORY / "examples", REPOSITORY / "docs"


def printed(*words: str) -> str:
    """What a command prints that ends with status 0."""
    environment = {**os.environ, "PYTHONIOENCODING": "utf-8"}
    done = subprocess.run(words, capture_output=True, check=True, env=environment)
    return done.stdout.decode()


class Dimuon(EngineCase):
    def test_one_session_and_many(self) -> None:
        with tempfile.TemporaryDirectory() as folder:
            picture = Path(folder, "dimuon.svg")
            one = printed(sys.executable, "-B", str(EXAMPLES / "dimuon.py"), str(picture))
            self.assertEqual(picture.read_bytes(), (DOCS / "dimuon.svg").read_bytes())
        self.assertEqual(printed(str(EXAMPLES / "many.sh"), command_of(None)[0]), one)
        self.assertEqual(len(one.splitlines()), 43)

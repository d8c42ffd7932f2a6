"""The examples in Python of docs/python.md and of the README, with the pictures they make."""

from __future__ import annotations

import doctest
import os
import re
import tempfile
from pathlib import Path
from typing import Any

from jagged_testing import EngineCase
from jagged.program import REPOSITORY

PARSER = doctest.DocTestParser()


class Documents(EngineCase):
    def test_client(self) -> None:
        self.check(REPOSITORY / "docs" / "python.md")

    def test_readme(self) -> None:
        self.check(REPOSITORY / "README.md")

    def check(self, document: Path) -> None:
        """Runs a document's examples in a folder of their own; each file that they make there is
        one that stands in docs/.
        """
        before = os.getcwd()
        self.addCleanup(os.chdir, before)
        with tempfile.TemporaryDirectory() as folder:
            os.chdir(folder)
            self.run_examples(document)
            for made in Path(folder).iterdir():
                kept = REPOSITORY / "docs" / made.name
                self.assertEqual(made.read_text(), kept.read_text(), f"{kept} is another picture")
            os.chdir(before)

    def run_examples(self, document: Path) -> None:
        """Runs the examples of a document, block by block, all with the same names."""
        blocks = re.findall(
            r"^```pycon\n(.*?)^```$", document.read_text(), re.DOTALL | re.MULTILINE
        )
        self.assertTrue(blocks)
        names: dict[str, Any] = {}
        for block in blocks:
            examples = PARSER.get_doctest(block, names, document.name, None, None)
            try:
                doctest.DebugRunner().run(examples, clear_globs=False)
            except doctest.DocTestFailure as failure:
                self.fail(
                    f"{failure.example.source}gave {failure.got}, and not {failure.example.want}"
                )
            except doctest.UnexpectedException as failure:
                raise failure.exc_info[1] from None
            names = examples.globs

"""Chains of 20,000 lines that make options, in a stack of 1 MB: none makes a layout higher."""

from __future__ import annotations

import importlib.util

from jagged_testing import EngineCase
from jagged.program import REPOSITORY, command_of

LINES = 20_000


class Chains(EngineCase):
    def test_each_ends_with_the_answer_of_a_short_one(self) -> None:
        spec = importlib.util.spec_from_file_location("chains", REPOSITORY / "bench" / "chains.py")
        assert spec is not None and spec.loader is not None
        chains = importlib.util.module_from_spec(spec)
        spec.loader.exec_module(chains)
        program = command_of(None)[0]
        for chain in chains.CHAINS:
            with self.subTest(chain=chain):
                status, _, answers = chains.run(program, chains.session(*chain, LINES))
                self.assertEqual((status, set(answers[-LINES - 1 : -1])), (0, {b'{"bound":"x"}'}))
                _, _, short = chains.run(program, chains.session(*chain, 4))
                self.assertEqual(answers[-1], short[-1])

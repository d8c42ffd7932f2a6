"""What the tests share: the program that they try, stand-ins for it, and arrays."""

from __future__ import annotations

import os
import unittest
from array import array
from typing import Any

from jagged import Session
from jagged.program import BUILT_PROGRAM, PROGRAM_VARIABLE

IS_NAMED = bool(os.environ.get(PROGRAM_VARIABLE))


class EngineCase(unittest.TestCase):
    """Tests of a session with the program."""

    @classmethod
    def setUpClass(cls) -> None:
        if not IS_NAMED and not BUILT_PROGRAM.is_file():
            raise AssertionError(
                "there is no program to try: `./run.sh </dev/null` builds it (up to an hour on"
                f" four processors), or {PROGRAM_VARIABLE} names one"
            )

    def setUp(self) -> None:
        self.session = Session()
        self.addCleanup(self.session.close)


class Columns:
    """Makes forms, and keeps their buffers in a container."""

    def __init__(self) -> None:
        self.container: dict[str, array[int]] = {}

    def numbers(self, values: list[int], primitive: str = "int64", code: str = "q") -> Any:
        key = self._keep("data", code, values)
        return {"class": "NumpyArray", "primitive": primitive, "form_key": key}

    def lists(self, offsets: list[int], content: Any) -> Any:
        key = self._keep("offsets", "q", offsets)
        return {"class": "ListOffsetArray", "offsets": "i64", "content": content, "form_key": key}

    def options(self, index: list[int], content: Any) -> Any:
        key = self._keep("index", "q", index)
        return {"class": "IndexedOptionArray", "index": "i64", "content": content, "form_key": key}

    def _keep(self, attribute: str, code: str, values: list[int]) -> str:
        key = f"node{len(self.container)}"
        self.container[f"{key}-{attribute}"] = array(code, values)
        return key


def load_examples(session: Session) -> None:
    """Binds the arrays that the examples speak of.

    a is [[1, 2, 3], [], [4, 5]], o is [1, None, 3], l is [[1, None], None, [3]],
    r is [{"x": 1, "y": [1, 2]}, {"x": 2, "y": []}], b is [True, False, True], c is [7, 7, 5, 7].
    """
    make = Columns()
    form = make.lists([0, 3, 3, 5], make.numbers([1, 2, 3, 4, 5]))
    session.load("a", form, 3, make.container)
    form = make.options([0, -1, 1], make.numbers([1, 3]))
    session.load("o", form, 3, make.container)
    items = make.options([0, -1, 1], make.numbers([1, 3]))
    form = make.options([0, -1, 1], make.lists([0, 2, 3], items))
    session.load("l", form, 3, make.container)
    contents = [make.numbers([1, 2]), make.lists([0, 2, 2], make.numbers([1, 2]))]
    form = {"class": "RecordArray", "fields": ["x", "y"], "contents": contents}
    session.load("r", form, 2, make.container)
    session.load("b", make.numbers([1, 0, 1], "bool", "b"), 3, make.container)
    session.load("c", make.numbers([7, 7, 5, 7]), 4, make.container)

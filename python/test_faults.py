"""Each fault once, with its fields."""

from __future__ import annotations

import pickle
import sys
import unittest
from collections.abc import Callable
from typing import Any

import jagged
from jagged_testing import Columns, EngineCase, load_examples
from jagged import (
    AxisFault,
    BufferFault,
    DepthFault,
    EngineFault,
    Expression,
    FieldFault,
    FormFault,
    IndexFault,
    InvalidFault,
    JsonFault,
    LengthsFault,
    NameFault,
    NoAnswer,
    OverflowFault,
    QueryFault,
    Session,
    SizeFault,
    TypeFault,
    ZeroFault,
    e,
)


# Answers the first line by the first word, and each further line by the second.
ANSWERS = """
import sys
for place, _ in enumerate(sys.stdin):
    print(sys.argv[1 if place == 0 else 2], flush=True)
"""


def answers(line: str, first: str = '{"session":2}') -> Session:
    """A session with a program that answers each line but the first by this one."""
    return Session([sys.executable, "-c", ANSWERS, first, line])


class Faults(EngineCase):
    def setUp(self) -> None:
        super().setUp()
        load_examples(self.session)

    def fails(self, fault: EngineFault, call: Callable[..., Any], *arguments: Any) -> None:
        """Checks that the call raises this fault, and that the session goes on."""
        with self.assertRaises(type(fault)) as caught:
            call(*arguments)
        self.assertEqual(repr(caught.exception), repr(fault))
        self.assertEqual(self.session.show("c"), [7, 7, 5, 7])

    def test_json(self) -> None:
        deep: Expression = e.c
        for _ in range(130):
            deep = -deep
        self.fails(JsonFault(), self.session.show, deep)

    def test_query(self) -> None:
        self.fails(QueryFault(), self.session.show, ["nothing", "c"])
        self.fails(QueryFault(), self.session.show, e.c[::0])
        self.fails(QueryFault(), self.session.load, "", {}, 0, {})

    def test_form(self) -> None:
        form = {"class": "RegularArray", "size": 2, "content": {"class": "NumpyArray"}}
        self.fails(FormFault(1, "key"), self.session.load, "x", form, 1, {})
        form["content"] = {"class": "NumpyArray", "primitive": "float64"}
        self.fails(FormFault(1, "primitive"), self.session.load, "x", form, 1, {})
        self.fails(FormFault(0, "class"), self.session.load, "x", [], 1, {})

    def test_buffer(self) -> None:
        make = Columns()
        form = make.numbers([1, 2])
        short = BufferFault("node0-data", "short")
        self.fails(short, self.session.load, "x", form, 3, make.container)
        absent = BufferFault("node0-data", "absent")
        self.fails(absent, self.session.load, "x", form, 2, {})

    def test_invalid(self) -> None:
        make = Columns()
        form = make.lists([0, 3, 2], make.numbers([1, 2, 3]))
        fault = InvalidFault(0, "order", 1)
        self.fails(fault, self.session.load, "x", form, 2, make.container)

    def test_depth(self) -> None:
        form: Any = {"class": "EmptyArray"}
        for _ in range(60):
            form = {"class": "RegularArray", "size": 1, "content": form}
        self.fails(DepthFault(), self.session.load, "x", form, 0, {})

    def test_size(self) -> None:
        form = {"class": "RegularArray", "size": 2**40, "content": {"class": "EmptyArray"}}
        self.fails(SizeFault(), self.session.load, "x", form, 1, {})

    def test_name(self) -> None:
        self.fails(NameFault("x"), self.session.show, e.x)
        self.fails(NameFault("x"), self.session.let, "y", e.x)
        self.fails(NameFault("x"), self.session.type, "x")

    def test_field(self) -> None:
        self.fails(FieldFault("w"), self.session.show, e.r["w"])

    def test_axis(self) -> None:
        self.fails(AxisFault(), self.session.show, e.num(e.a, 2))
        self.fails(AxisFault(), self.session.show, e.num(e.a, -3))
        self.fails(AxisFault(), self.session.show, e.num(e.r, -1))

    def test_type(self) -> None:
        self.fails(TypeFault(), self.session.show, e.o + e.b)
        self.fails(TypeFault(), self.session.pack, 5)

    def test_overflow(self) -> None:
        self.fails(OverflowFault(), self.session.show, 2**63)
        self.fails(OverflowFault(), self.session.show, e.c + (2**63 - 1))

    def test_zero(self) -> None:
        self.fails(ZeroFault(), self.session.show, e.c % 0)

    def test_lengths(self) -> None:
        self.fails(LengthsFault(), self.session.show, e.a + e.l)

    def test_index(self) -> None:
        self.fails(IndexFault(), self.session.show, e.c[4])


class Answers(unittest.TestCase):
    """What a program may answer that the engine does not."""

    def test_no_answers(self) -> None:
        for line in ["no JSON", "[]", '{"type":"int64"}', '{"fault":"new"}', '{"fault":"name"}']:
            with answers(line) as session, self.assertRaises(NoAnswer):
                session.show("x")
        with answers('{"bound":"y"}') as session, self.assertRaises(NoAnswer):
            session.let("x", "x")

    def test_no_session_of_version_2(self) -> None:
        for first in ["no JSON", '{"session":1}', '{"fault":"query"}']:
            with answers('{"value":1}', first) as session, self.assertRaises(NoAnswer):
                session.show("x")


class Family(unittest.TestCase):
    def test_each_fault_has_a_test(self) -> None:
        words = {it.word for it in EngineFault.__subclasses__()}
        tests = {*vars(Faults)}
        self.assertEqual({it for it in words if f"test_{it}" not in tests}, set())

    def test_texts(self) -> None:
        self.assertEqual(str(NameFault("x")), "nothing is bound: name 'x'")
        self.assertEqual(str(ZeroFault()), "a divisor is 0")
        told = "a buffer breaks a rule of its class: node 0, rule 'order', place 1"
        self.assertEqual(str(InvalidFault(0, "order", 1)), told)

    def test_pickle(self) -> None:
        for fault in [InvalidFault(0, "order", 1), ZeroFault()]:
            self.assertEqual(repr(pickle.loads(pickle.dumps(fault))), repr(fault))

    def test_one_family(self) -> None:
        for kind in EngineFault.__subclasses__():
            self.assertTrue(issubclass(kind, jagged.JaggedError))
            self.assertTrue(kind.word and kind.says)

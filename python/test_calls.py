"""Each call of a session once, with buffers of each kind, large ones among them."""

from __future__ import annotations

import ctypes
import json
import subprocess
import sys
import tracemalloc
import unittest
from array import array
from typing import Any
from unittest import mock

from jagged_testing import Columns, EngineCase, load_examples
from jagged import LINE_LIMIT, Histogram, Session, e, load_line, loading, session
from jagged import OverflowFault, QueryFault, TypeFault
from jagged.program import command_of

NUMBERS = {"class": "NumpyArray", "primitive": "int64", "form_key": "node0"}
NUMBERS_PACKED: Any = {**NUMBERS, "inner_shape": [], "parameters": {}}

# Answers the first line by itself, and a load by a megabyte before it reads what is loaded.
SWALLOWS = """
import os
os.write(1, os.read(0, len('{"session": 2}') + 1))
os.write(1, b'{"bound":"x","more":"' + bytes([97]) * 2**20 + b'"}' + bytes([10]))
while os.read(0, 65536):
    pass
"""


def in_order(order: str, kind: Any, values: list[int]) -> Any:
    """A buffer of numbers of this kind, in the order that its format tells."""
    kind = kind.__ctype_be__ if order == ">" else kind.__ctype_le__
    return (kind * len(values))(*values)


class Calls(EngineCase):
    def test_load_and_show(self) -> None:
        load_examples(self.session)
        records = [{"x": 1, "y": [1, 2]}, {"x": 2, "y": []}]
        for name, value in {
            "a": [[1, 2, 3], [], [4, 5]],
            "o": [1, None, 3],
            "l": [[1, None], None, [3]],
            "r": records,
            "b": [True, False, True],
            "c": [7, 7, 5, 7],
        }.items():
            self.assertEqual(self.session.show(name), value)
            self.assertEqual(self.session.show(e[name]), value)
        self.assertEqual([*self.session.show("r")[0]], ["x", "y"])

    def test_show_a_tuple(self) -> None:
        make = Columns()
        contents = [make.numbers([1, 2]), make.numbers([3, 4])]
        form = {"class": "RecordArray", "fields": None, "contents": contents}
        x = self.session.load("x", form, 2, make.container)
        self.assertEqual(self.session.show(x), [{"0": 1, "1": 3}, {"0": 2, "1": 4}])

    def test_show_numbers_of_64_bits(self) -> None:
        for primitive, code, values in [
            ("int64", "q", [-(2**63), 2**63 - 1]),
            ("uint64", "Q", [2**53 + 1, 2**64 - 1]),
        ]:
            make = Columns()
            x = self.session.load("x", make.numbers(values, primitive, code), 2, make.container)
            self.assertEqual(self.session.show(x), values)
        self.assertEqual(self.session.show(2**63 - 1), 2**63 - 1)
        self.assertIs(self.session.show(True), True)

    def test_values(self) -> None:
        for data, type_ in [
            ([1, -2, 3], "3 * int64"),
            ([[1, None], [], None, [2]], "4 * option[var * ?int64]"),
            ([{"b": 1, "a": True}, 3], "2 * union[{a: bool, b: int64}, int64]"),
            ([{"x": [], "y": {"z": False}}], "1 * {x: var * unknown, y: {z: bool}}"),
            ([], "0 * unknown"),
            ([None], "1 * ?unknown"),
        ]:
            x = self.session.values("x", data)
            self.assertEqual(x.json, "x")
            self.assertEqual(self.session.show(x), data)
            self.assertEqual(self.session.type(x), type_)

    def test_values_of_other_kinds(self) -> None:
        data = (range(3), array("b", [4, 5]), (True, None))
        x = self.session.values("x", data)
        self.assertEqual(self.session.show(x), [[0, 1, 2], [4, 5], [True, None]])
        x = self.session.values("x", (k * k for k in range(4)))
        self.assertEqual(self.session.show(x), [0, 1, 4, 9])
        for wrong in [[object()], [1, {2, 3, "a", object}]]:
            with self.assertRaises(TypeError):
                self.session.values("x", wrong)
        self.assertEqual(self.session.show(x), [0, 1, 4, 9])

    def test_values_that_are_none(self) -> None:
        for data, fault in [
            ([1, "a"], TypeFault),
            ([1, 2.5], TypeFault),
            ([2**64], TypeFault),
            ([2**63], OverflowFault),
            ([2**63, None, "a"], TypeFault),
        ]:
            with self.assertRaises(fault):
                self.session.values("x", data)
        self.assertEqual(self.session.names(), [])

    def test_let(self) -> None:
        load_examples(self.session)
        copy = self.session.let("copy", e.a)
        self.assertEqual(self.session.show(copy), [[1, 2, 3], [], [4, 5]])

    def test_type(self) -> None:
        load_examples(self.session)
        self.assertEqual(self.session.type("a"), "3 * var * int64")
        self.assertEqual(self.session.type(e.l), "3 * option[var * ?int64]")

    def test_names(self) -> None:
        load_examples(self.session)
        self.assertEqual(self.session.names(), ["a", "o", "l", "r", "b", "c"])

    def test_pack(self) -> None:
        make = Columns()
        form = make.lists([2, 4, 4, 5], make.numbers([0, 0, 5, -1, 7]))
        self.session.load("x", form, 3, make.container)
        form, length, container = self.session.pack(e.x)
        self.assertEqual(
            form,
            {
                "class": "ListOffsetArray",
                "offsets": "i64",
                "content": {**NUMBERS_PACKED, "form_key": "node1"},
                "parameters": {},
                "form_key": "node0",
            },
        )
        self.assertEqual(length, 3)
        self.assertEqual(
            container,
            {
                "node0-offsets": array("q", [0, 2, 2, 3]).tobytes(),
                "node1-data": array("q", [5, -1, 7]).tobytes(),
            },
        )
        again = self.session.load("again", form, length, container)
        self.assertEqual(self.session.pack(again), (form, length, container))

    def test_hist(self) -> None:
        load_examples(self.session)
        found = self.session.hist(e.o, range(0, 4, 2))
        self.assertEqual(found, Histogram((0, 2), (1,), under=0, over=1, nulls=1))
        self.assertEqual(self.session.hist("o", [0, 2]), found)
        with self.assertRaises(QueryFault):
            self.session.hist("o", [2, 0])

    def test_hist_each(self) -> None:
        load_examples(self.session)
        found = self.session.hist_each(e.l, [0, 2])
        one, other = Histogram((0, 2), (1,), nulls=1), Histogram((0, 2), (0,), over=1)
        self.assertEqual(found, [one, None, other])
        self.assertEqual(self.session.hist_each("c", [0, 6]), Histogram((0, 6), (1,), over=3))

    def test_load_line(self) -> None:
        """The line as it stands in a file, which a program then answers."""
        line = load_line("x", NUMBERS, 2, {"node0-data": array("q", [5, -1])})
        show = b'{"show":"x"}\n'
        given = b"".join([b'{"session":2}\n', *line, show])
        self.assertEqual(len(given), len(line) + len(show) + 14)
        done = subprocess.run(command_of(None), input=given, capture_output=True, check=True)
        answers = b'{"session":2}\n{"bound":"x"}\n{"value":[5,-1]}\n'
        self.assertEqual(done.stdout, answers)

    def test_names_of_any_text(self) -> None:
        name = 'μ "pt"\n\\ \x7f \U0001f600'
        x = self.session.load(name, NUMBERS, 1, {"node0-data": array("q", [1])})
        self.assertEqual(x.json, name)
        self.assertEqual(self.session.show(x), [1])


class Arguments(EngineCase):
    def test_forms(self) -> None:
        class Form:
            def to_json(self) -> str:
                return json.dumps(NUMBERS)

        for form in [NUMBERS, json.dumps(NUMBERS), json.dumps(NUMBERS, indent=4), Form()]:
            x = self.session.load("x", form, 2, {"node0-data": array("q", [5, -1])})
            self.assertEqual(self.session.show(x), [5, -1])
        with self.assertRaises(ValueError):
            self.session.load("x", "{", 2, {})
        self.assertEqual(self.session.show("x"), [5, -1])

    def test_buffers(self) -> None:
        numbers = array("q", [5, -1])
        apart = array("q", [5, 0, -1, 0])
        grid = memoryview(numbers).cast("B").cast("q", shape=[2, 1])
        for buffer in [
            numbers,
            numbers.tobytes(),
            bytearray(numbers.tobytes()),
            memoryview(numbers),
            memoryview(apart)[::2],
            grid,
            (ctypes.c_int64 * 2)(5, -1),
        ]:
            x = self.session.load("x", NUMBERS, 2, {"node0-data": buffer})
            self.assertEqual(self.session.show(x), [5, -1])
        for empty in [b"", array("q"), (ctypes.c_int64 * 0)()]:
            x = self.session.load("x", NUMBERS, 0, {"node0-data": empty})
            self.assertEqual(self.session.show(x), [])
        x = self.session.load("x", NUMBERS, 1, {"node0-data": ctypes.c_int64(7)})
        self.assertEqual(self.session.show(x), [7])

    def test_no_buffer(self) -> None:
        with self.assertRaises(TypeError):
            self.session.load("x", NUMBERS, 2, {"node0-data": "AAAA"})
        with self.assertRaises(ValueError):
            self.session.load("x", NUMBERS, 2**64, {"node0-data": b""})
        x = self.session.load("x", NUMBERS, 1, {"node0-data": array("q", [1])})
        self.assertEqual(self.session.show(x), [1])

    def test_what_is_too_long(self) -> None:
        with self.assertRaisesRegex(ValueError, "container has 268,435,457"):
            self.session.load("x", NUMBERS, 2, {"node0-data": bytes(LINE_LIMIT), "more": b"1"})
        with mock.patch.object(loading, "LINE_LIMIT", 200):
            with self.assertRaisesRegex(ValueError, "line has 3.. bytes"):
                self.session.load("x", NUMBERS, 2, {"a" * 200: b""})
        with mock.patch.object(session, "LINE_LIMIT", 200):
            with self.assertRaisesRegex(ValueError, "line has 211 bytes"):
                self.session.show("a" * 200)
        self.assertEqual(self.session.names(), [])

    def test_numpy(self) -> None:
        try:
            import numpy
        except ModuleNotFoundError:
            self.skipTest("NumPy is not installed")
        numbers: Any = numpy.array([5, 0, -1, 0])
        for buffer in [numbers[::2], numbers.reshape(2, 2)[:, 0], numpy.asfortranarray([[5, -1]])]:
            x = self.session.load("x", NUMBERS, numpy.int64(2), {"node0-data": buffer})
            self.assertEqual(self.session.show(x), [5, -1])
        x = self.session.load("x", NUMBERS, 0, {"node0-data": numpy.zeros(0, "i8")})
        self.assertEqual(self.session.show(x), [])
        for order in [">i8", "<i8"]:
            for values in [numbers[::2].astype(order), numbers.astype(order)[::2]]:
                self.session.load("x", NUMBERS, 2, {"node0-data": values})
                self.assertEqual(self.session.show(numpy.int64(1) + e.x), [6, 0])
        x = self.session.values("x", [numbers, numpy.int16(7)])
        self.assertEqual(self.session.show(x), [[5, 0, -1, 0], 7])
        make = Columns()
        form = make.lists([], make.numbers([], "uint16", "H"))
        data, offsets = numpy.array([5, 65535], ">u2"), numpy.array([0, 1, 2])
        for offsets in [offsets, offsets.astype(">i8")]:
            x = self.session.load("x", form, 2, dict(zip(make.container, [data, offsets])))
            self.assertEqual(self.session.show(x), [[5], [65535]])

    def test_byte_orders(self) -> None:
        make = Columns()
        form = make.lists([], make.numbers([], "int32", "i"))
        for first in "<>":
            for second in "<>":
                numbers = in_order(first, ctypes.c_int32, [5, -1])
                offsets = in_order(second, ctypes.c_int64, [0, 1, 2])
                container = dict(zip(make.container, [numbers, offsets]))
                x = self.session.load("x", form, 2, container)
                self.assertEqual(self.session.show(x), [[5], [-1]])

    def test_bytes_in_an_order(self) -> None:
        for order in "<>":
            numbers = memoryview(in_order(order, ctypes.c_int64, [5, -1])).tobytes()
            x = self.session.load("x", NUMBERS, 2, {"node0-data": numbers}, byteorder=order)
            self.assertEqual(self.session.show(x), [5, -1])
        with self.assertRaisesRegex(ValueError, "byte order"):
            self.session.load("x", NUMBERS, 2, {"node0-data": numbers}, byteorder="big")

    def test_truth_values_have_no_order(self) -> None:
        make = Columns()
        contents = [make.numbers([], "bool", "b"), make.numbers([])]
        form = {"class": "RecordArray", "fields": ["b", "n"], "contents": contents}
        for truths in [array("b", [1, 0]), bytes([1, 0])]:
            buffers = truths, in_order(">", ctypes.c_int64, [5, -1])
            x = self.session.load("x", form, 2, dict(zip(make.container, buffers)))
            self.assertEqual(self.session.show(x), [{"b": True, "n": 5}, {"b": False, "n": -1}])

    def test_awkward(self) -> None:
        try:
            import awkward
        except ModuleNotFoundError:
            self.skipTest("Awkward Array is not installed")
        values = [[{"pt": 5, "charge": 1}], [], [{"pt": 7, "charge": None}]]
        x = self.session.load("x", *awkward.to_buffers(awkward.Array(values)))
        self.assertEqual(self.session.show(x), values)
        self.assertEqual(awkward.from_buffers(*self.session.pack(x)).to_list(), values)


class Large(EngineCase):
    def test_a_million_numbers(self) -> None:
        values = array("q", range(-500_000, 500_000))
        told: list[tuple[int, int]] = []
        x = self.session.load(
            "x",
            NUMBERS,
            len(values),
            {"node0-data": values},
            progress=lambda sent, total: told.append((sent, total)),
        )
        sent = [it for it, _ in told]
        self.assertEqual(sent, sorted({*sent}))
        self.assertGreater(len(sent), 10)
        self.assertEqual({it for _, it in told}, {sent[-1]})
        self.assertGreater(sent[-1], len(values.tobytes()))
        self.assertEqual(self.session.show(x), values.tolist())
        form, length, container = self.session.pack(x)
        self.assertEqual((form, length), (NUMBERS_PACKED, len(values)))
        self.assertEqual(container, {"node0-data": values.tobytes()})


class Streaming(unittest.TestCase):
    def test_both_pipes_full(self) -> None:
        with Session([sys.executable, "-c", SWALLOWS]) as session:
            session.load("x", NUMBERS, 0, {"node0-data": bytes(4_000_000)})

    def test_no_line_in_memory(self) -> None:
        buffer = bytes(30_000_000)
        with Session([sys.executable, "-c", SWALLOWS]) as session:
            tracemalloc.start()
            self.addCleanup(tracemalloc.stop)
            session.load("x", NUMBERS, 0, {"node0-data": buffer})
            self.assertLess(tracemalloc.get_traced_memory()[1], 10_000_000)


class Sessions(EngineCase):
    def test_several_at_once(self) -> None:
        with Session() as other:
            x = self.session.load("x", NUMBERS, 1, {"node0-data": array("q", [1])})
            other.load("x", NUMBERS, 1, {"node0-data": array("q", [2])})
            self.assertEqual(self.session.show(x), [1])
            self.assertEqual(other.show(x), [2])

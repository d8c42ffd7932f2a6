"""Each operation: the call that `e` makes, and what the engine answers."""

from __future__ import annotations

import pickle
import unittest
from typing import Any

from jagged_testing import EngineCase, load_examples
from jagged import Builder, Expression, e


def pair(x: Any, y: Any) -> dict[str, Any]:
    return {"0": x, "1": y}


def bins(counts: list[int], under: int, over: int, nulls: int) -> dict[str, Any]:
    return {"counts": counts, "under": under, "over": over, "nulls": nulls}


# Of the arrays of `load_examples`: an expression, its JSON, and its value.
EXAMPLES: list[tuple[Expression, Any, Any]] = [
    (e.at(e.o, 1), ["at", "o", 1], None),
    (e.c[-2], ["at", "c", -2], 5),
    (e.range(e.c, 1, 3), ["range", "c", 1, 3], [7, 5]),
    (e.range("c", None, None, -2), ["range", "c", None, None, -2], [7, 7]),
    (e.c[2:], ["range", "c", 2, None], [5, 7]),
    (e.c[::-1], ["range", "c", None, None, -1], [7, 5, 7, 7]),
    (e.field(e.r, "x"), ["field", "r", "x"], [1, 2]),
    (e.r["y"], ["field", "r", "y"], [[1, 2], []]),
    (e.fields(e.r, ("x",)), ["fields", "r", ["x"]], [{"x": 1}, {"x": 2}]),
    (e.r[["y", "x"]], ["fields", "r", ["y", "x"]], [{"y": [1, 2], "x": 1}, {"y": [], "x": 2}]),
    (e.without_field(e.r, "y"), ["without_field", "r", "y"], [{"x": 1}, {"x": 2}]),
    (
        e.with_field(e.r, "z", e.r["x"]),
        ["with_field", "r", "z", ["field", "r", "x"]],
        [{"x": 1, "y": [1, 2], "z": 1}, {"x": 2, "y": [], "z": 2}],
    ),
    (e.at_each(e.l, 0), ["at_each", "l", 0], [1, None, 3]),
    (e.pick(e.a, e.b), ["pick", "a", "b"], [[1, 2, 3], [4, 5]]),
    (e.c[e.o], ["pick", "c", "o"], [7, None, 7]),
    (e.num(e.a, 1), ["num", "a", 1], [3, 0, 2]),
    (e.num(e.a, -1), ["num", "a", -1], [3, 0, 2]),
    (e.num(e.a, -2), ["num", "a", -2], 3),
    (e.num(e.r["y"], -1), ["num", ["field", "r", "y"], -1], [2, 0]),
    (e.flatten(e.l, 1), ["flatten", "l", 1], [1, None, 3]),
    (e.flatten(e.l, -1), ["flatten", "l", -1], [1, None, 3]),
    (e.local_index(e.a, 1), ["local_index", "a", 1], [[0, 1, 2], [], [0, 1]]),
    (e.local_index(e.a, -2), ["local_index", "a", -2], [0, 1, 2]),
    (
        e.unflatten(e.flatten(e.a, 1), e.num(e.a, 1)),
        ["unflatten", ["flatten", "a", 1], ["num", "a", 1]],
        [[1, 2, 3], [], [4, 5]],
    ),
    (e.run_lengths(e.c), ["run_lengths", "c"], [2, 1, 1]),
    (
        e.zip(1, {"p": e.o, "q": "b"}),
        ["zip", 1, [["p", "o"], ["q", "b"]]],
        [{"p": 1, "q": True}, {"p": None, "q": False}, {"p": 3, "q": True}],
    ),
    (
        e.tuple(1, [e.o, e.b]),
        ["tuple", 1, ["o", "b"]],
        [pair(1, True), pair(None, False), pair(3, True)],
    ),
    (
        e.concatenate(1, [e.a, e.a]),
        ["concatenate", 1, ["a", "a"]],
        [[1, 2, 3, 1, 2, 3], [], [4, 5, 4, 5]],
    ),
    (
        e.concatenate(-1, [e.a, e.a]),
        ["concatenate", -1, ["a", "a"]],
        [[1, 2, 3, 1, 2, 3], [], [4, 5, 4, 5]],
    ),
    (e.is_none(e.l, 1), ["is_none", "l", 1], [[False, True], None, [False]]),
    (e.is_none(e.l, -1), ["is_none", "l", -1], [[False, True], None, [False]]),
    (e.fill_none(e.o, 0, 0), ["fill_none", "o", 0, 0], [1, 0, 3]),
    (e.fill_none(e.l, 0, -1), ["fill_none", "l", 0, -1], [[1, 0], None, [3]]),
    (e.drop_none(e.l, 1), ["drop_none", "l", 1], [[1], None, [3]]),
    (e.drop_none(e.l, -2), ["drop_none", "l", -2], [[1, None], [3]]),
    (e.firsts(e.a, 1), ["firsts", "a", 1], [1, None, 4]),
    (e.firsts(e.a, -1), ["firsts", "a", -1], [1, None, 4]),
    (e.singletons(e.o, 0), ["singletons", "o", 0], [[1], [], [3]]),
    (e.singletons(e.o, -1), ["singletons", "o", -1], [[1], [], [3]]),
    (e.pad_none(e.a, 2, 1, True), ["pad_none", "a", 2, 1, True], [[1, 2], [None, None], [4, 5]]),
    (e.pad_none(e.a, 2, -1, True), ["pad_none", "a", 2, -1, True], [[1, 2], [None, None], [4, 5]]),
    (e.put_mask(e.o, e.b, False), ["put_mask", "o", "b", False], [None, None, None]),
    (e.add(e.c, 1), ["add", "c", 1], [8, 8, 6, 8]),
    (1 + e.c, ["add", 1, "c"], [8, 8, 6, 8]),
    (e.sub(e.c, 1), ["sub", "c", 1], [6, 6, 4, 6]),
    (10 - e.c, ["sub", 10, "c"], [3, 3, 5, 3]),
    (e.mul(e.c, 2), ["mul", "c", 2], [14, 14, 10, 14]),
    (2 * e.c, ["mul", 2, "c"], [14, 14, 10, 14]),
    (e.floor_div(e.c, -2), ["floor_div", "c", -2], [-4, -4, -3, -4]),
    (-8 // e.c, ["floor_div", -8, "c"], [-2, -2, -2, -2]),
    (e.rem(e.c, -4), ["rem", "c", -4], [-1, -1, -3, -1]),
    (6 % e.c, ["rem", 6, "c"], [6, 6, 1, 6]),
    (e.eq(e.c, 7), ["eq", "c", 7], [True, True, False, True]),
    (e.ne(e.c, 7), ["ne", "c", 7], [False, False, True, False]),
    (e.lt(e.a, 3), ["lt", "a", 3], [[True, True, False], [], [False, False]]),
    (e.le(e.c, 5), ["le", "c", 5], [False, False, True, False]),
    (e.gt(e.c, 5), ["gt", "c", 5], [True, True, False, True]),
    (e.ge(e.c, 7), ["ge", "c", 7], [True, True, False, True]),
    (3 < e.o, ["gt", "o", 3], [False, None, False]),
    (e.and_(e.b, True), ["and", "b", True], [True, False, True]),
    (e.or_(e.b, False), ["or", "b", False], [True, False, True]),
    (e.xor(e.b, e.b), ["xor", "b", "b"], [False, False, False]),
    (e.not_(e.b), ["not", "b"], [False, True, False]),
    (e.neg(e.o), ["neg", "o"], [-1, None, -3]),
    (e.abs(e.neg(e.o)), ["abs", ["neg", "o"]], [1, None, 3]),
    (e.abs(e.o), ["abs", "o"], [1, None, 3]),
    (e.where(e.b, e.o, 0), ["where", "b", "o", 0], [1, 0, 3]),
    (e.cast(e.b, "uint8"), ["cast", "b", "uint8"], [1, 0, 1]),
    (e.sum(e.a), ["sum", "a"], [6, 0, 9]),
    (e.prod(e.a), ["prod", "a"], [6, 1, 20]),
    (e.min(e.a), ["min", "a"], [1, None, 4]),
    (e.max(e.a), ["max", "a"], [3, None, 5]),
    (e.argmin(e.c), ["argmin", "c"], 2),
    (e.argmax(e.a), ["argmax", "a"], [2, None, 1]),
    (e.any(e.b), ["any", "b"], True),
    (e.all(e.a), ["all", "a"], [True, True, True]),
    (e.count(e.l), ["count", "l"], [1, None, 1]),
    (e.count_nonzero(e.a), ["count_nonzero", "a"], [3, 0, 2]),
    (
        e.cartesian(1, [e.l, e.l]),
        ["cartesian", 1, ["l", "l"]],
        [[pair(1, 1), pair(1, None), pair(None, 1), pair(None, None)], None, [pair(3, 3)]],
    ),
    (
        e.argcartesian(1, [e.l, e.l]),
        ["argcartesian", 1, ["l", "l"]],
        [[pair(0, 0), pair(0, 1), pair(1, 0), pair(1, 1)], None, [pair(0, 0)]],
    ),
    (
        e.combinations(2, True, 0, e.o),
        ["combinations", 2, True, 0, "o"],
        [pair(1, 1), pair(1, None), pair(1, 3), pair(None, None), pair(None, 3), pair(3, 3)],
    ),
    (
        e.argcombinations(2, False, 1, e.a),
        ["argcombinations", 2, False, 1, "a"],
        [[pair(0, 1), pair(0, 2), pair(1, 2)], [], [pair(0, 1)]],
    ),
    (e.sort(e.a, False), ["sort", "a", False], [[3, 2, 1], [], [5, 4]]),
    (e.sort("o", True), ["sort", "o", True], [1, 3, None]),
    (e.argsort(e.c, True), ["argsort", "c", True], [2, 0, 1, 3]),
    (e.argsort(e.c, False), ["argsort", "c", False], [0, 1, 3, 2]),
    (e.hist(e.l, range(0, 4, 2)), ["hist", "l", [0, 2]], bins([1], 0, 1, 2)),
    (
        e.hist_each(e.l, [0, 2, 2**64 - 1]),
        ["hist_each", "l", [0, 2, 2**64 - 1]],
        [bins([1, 0], 0, 0, 1), None, bins([0, 1], 0, 0, 0)],
    ),
]

# What is written by operators, and the call that it is.
SAME: list[tuple[Expression, Expression]] = [
    (e.c + 1, e.add("c", 1)),
    (e.c - 1, e.sub("c", 1)),
    (e.c * e.c, e.mul("c", "c")),
    (e.c // 2, e.floor_div("c", 2)),
    (e.c % 2, e.rem("c", 2)),
    (e.c == 7, e.eq("c", 7)),
    (e.c != 7, e.ne("c", 7)),
    (e.c < 7, e.lt("c", 7)),
    (e.c <= 7, e.le("c", 7)),
    (e.c > 7, e.gt("c", 7)),
    (e.c >= 7, e.ge("c", 7)),
    (7 == e.c, e.eq("c", 7)),
    (e.b & True, e.and_("b", True)),
    (True & e.b, e.and_(True, "b")),
    (e.b | True, e.or_("b", True)),
    (True | e.b, e.or_(True, "b")),
    (e.b ^ True, e.xor("b", True)),
    (True ^ e.b, e.xor(True, "b")),
    (~e.b, e.not_("b")),
    (-e.c, e.neg("c")),
    (abs(e.c), e.abs("c")),
    (["num", e.a, 1] + e.c, e.add(e.num("a", 1), "c")),
    (e["num"], Expression("num")),
]


class Operations(EngineCase):
    def test_values(self) -> None:
        load_examples(self.session)
        for expression, json, value in EXAMPLES:
            with self.subTest(json=json):
                self.assertEqual(self.session.show(expression), value)
                self.assertEqual(self.session.show(json), value)

    def test_each_operation_has_an_example(self) -> None:
        calls = {it.rstrip("_") for it in vars(Builder) if not it.startswith("_")}
        self.assertEqual(calls, {json[0] for _, json, _ in EXAMPLES})


class Expressions(unittest.TestCase):
    def test_json(self) -> None:
        for expression, json, _ in EXAMPLES:
            self.assertEqual(expression.json, json)
        for expression, same in SAME:
            self.assertEqual(expression.json, same.json)

    def test_numbers(self) -> None:
        self.assertEqual((e.x + (2**64 - 1)).json, ["add", "x", 2**64 - 1])
        self.assertEqual((e.x + -(2**63)).json, ["add", "x", -(2**63)])
        for number in [2**64, -(2**63) - 1]:
            with self.assertRaisesRegex(ValueError, "64 bits"):
                e.x + number
        for what in [1.0, object(), {}, {"x"}]:
            with self.assertRaises(TypeError):
                e.x + what
        for key in [1.0, ("pt", "eta"), None]:
            with self.assertRaises(TypeError):
                e.x[key]

    def test_nothing_is_evaluated(self) -> None:
        for evaluates in [
            lambda: bool(e.x == 3),
            lambda: 1 < e.x < 3,
            lambda: not e.x,
            lambda: e.x in [e.y],
            lambda: 3 in e.x,
            lambda: [*e.x],
            lambda: {e.x},
            lambda: len(e.x),
        ]:
            with self.assertRaises(TypeError):
                evaluates()

    def test_names(self) -> None:
        self.assertEqual(e["any name"].json, "any name")
        self.assertEqual(repr(e.num(e.x, 1)), "Expression(['num', 'x', 1])")
        for wrong in [lambda: e._x, lambda: e.__wrapped__]:
            with self.assertRaises(AttributeError):
                wrong()
        with self.assertRaises(AttributeError):
            e.x = 3
        with self.assertRaises(TypeError):
            e[3]  # type: ignore[index]
        self.assertEqual(pickle.loads(pickle.dumps(e.x + 1)).json, ["add", "x", 1])

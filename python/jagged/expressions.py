"""Expressions: what the engine is to compute, which Python only writes down."""

from __future__ import annotations

import operator
from collections.abc import Sequence
from typing import Any, SupportsIndex, Union

LEAST, GREATEST = -(2**63), 2**64 - 1


class Expression:
    """What the engine is to compute; nothing is computed here.

    `x["pt"]` is a field, `x[["pt", "eta"]]` the record of some fields, `x[3]` an item, `x[2:5]` and
    `x[::-1]` ranges, and `x[y]` what `e.pick(x, y)` gives. The operators `+ - * // %`,
    `== != < <= > >=`, `& | ^ ~`, `-x` and `abs(x)` are the engine's.

    As `==` makes an expression, an expression has no hash; and as nothing is computed, it has no
    truth value: `if x == y`, `x < y < z`, `not x` and `x in [y]` raise TypeError.
    """

    __slots__ = ("json",)

    # (Python would go over x[0], x[1] and so on without an end.)
    __iter__ = None
    # (NumPy would take the expression for an item of an array.)
    __array_ufunc__ = None

    def __init__(self, x: Operand) -> None:
        self.json = json_of(x)

    def __repr__(self) -> str:
        return f"Expression({self.json!r})"

    def __bool__(self) -> bool:
        raise TypeError("an expression has no truth value: Session.show asks for its value")

    def __getitem__(self, key: str | SupportsIndex | slice | list[str] | Expression) -> Expression:
        if isinstance(key, str):
            return call("field", self, key)
        if isinstance(key, list):
            return call("fields", self, key)
        if isinstance(key, Expression):
            return call("pick", self, key)
        if isinstance(key, slice):
            step = [] if key.step is None else [key.step]
            return call("range", self, key.start, key.stop, *step)
        return call("at", self, number(key))

    def __add__(self, y: Operand) -> Expression:
        return call("add", self, y)

    def __radd__(self, x: Operand) -> Expression:
        return call("add", x, self)

    def __sub__(self, y: Operand) -> Expression:
        return call("sub", self, y)

    def __rsub__(self, x: Operand) -> Expression:
        return call("sub", x, self)

    def __mul__(self, y: Operand) -> Expression:
        return call("mul", self, y)

    def __rmul__(self, x: Operand) -> Expression:
        return call("mul", x, self)

    def __floordiv__(self, y: Operand) -> Expression:
        return call("floor_div", self, y)

    def __rfloordiv__(self, x: Operand) -> Expression:
        return call("floor_div", x, self)

    def __mod__(self, y: Operand) -> Expression:
        return call("rem", self, y)

    def __rmod__(self, x: Operand) -> Expression:
        return call("rem", x, self)

    def __eq__(self, y: Operand) -> Expression:  # type: ignore[override]
        return call("eq", self, y)

    def __ne__(self, y: Operand) -> Expression:  # type: ignore[override]
        return call("ne", self, y)

    def __lt__(self, y: Operand) -> Expression:
        return call("lt", self, y)

    def __le__(self, y: Operand) -> Expression:
        return call("le", self, y)

    def __gt__(self, y: Operand) -> Expression:
        return call("gt", self, y)

    def __ge__(self, y: Operand) -> Expression:
        return call("ge", self, y)

    def __and__(self, y: Operand) -> Expression:
        return call("and", self, y)

    def __rand__(self, x: Operand) -> Expression:
        return call("and", x, self)

    def __or__(self, y: Operand) -> Expression:
        return call("or", self, y)

    def __ror__(self, x: Operand) -> Expression:
        return call("or", x, self)

    def __xor__(self, y: Operand) -> Expression:
        return call("xor", self, y)

    def __rxor__(self, x: Operand) -> Expression:
        return call("xor", x, self)

    def __invert__(self) -> Expression:
        return call("not", self)

    def __neg__(self) -> Expression:
        return call("neg", self)

    def __abs__(self) -> Expression:
        return call("abs", self)


# An expression: one that `e` made, the name of a variable, a number or truth value, or the list
# that is a call in a session's line.
Operand = Union[Expression, str, SupportsIndex, Sequence[Any]]


def call(operation: str, *arguments: Any) -> Expression:
    """The call of an operation by its name in the session's lines."""
    return Expression([operation, *arguments])


def json_of(part: Any) -> Any:
    """The JSON of an expression, or of another argument of a call."""
    if isinstance(part, Expression):
        return part.json
    if part is None or isinstance(part, (bool, str)):
        return part
    if isinstance(part, (list, tuple)):
        return [json_of(it) for it in part]
    return number(part)


def number(value: Any) -> int:
    """A whole number of any kind, NumPy's among them, as an int."""
    try:
        whole = operator.index(value)
    except TypeError:
        raise TypeError(f"a whole number is wanted, and not {value!r}") from None
    if not LEAST <= whole <= GREATEST:
        raise ValueError(f"{whole} does not fit 64 bits")
    return whole

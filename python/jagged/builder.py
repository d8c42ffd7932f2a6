"""The builder of expressions: one call an operation, in the order of the format's tables."""

from __future__ import annotations

from collections.abc import Iterable, Mapping

from .expressions import Expression, Operand, call


class Builder:
    """Makes expressions: `e.x` is the variable x, and `e.num(e.x, 1)` a call.

    A variable whose name is an operation's, begins with `_`, or is no name in Python is written
    `e["num"]`. Each call takes its arguments in the order of a session's line; operands may also be
    names, numbers, truth values and the lists that are calls in a line. `and`, `or` and `not` are
    words of Python, so their calls end in `_`. A negative axis counts from the innermost lists.
    """

    __slots__ = ()

    def __getattr__(self, name: str) -> Expression:
        if name.startswith("_"):
            raise AttributeError(f"write e[{name!r}] for the variable {name}")
        return Expression(name)

    def __getitem__(self, name: str) -> Expression:
        if not isinstance(name, str):
            raise TypeError(f"a variable's name is a text, and not {name!r}")
        return Expression(name)

    # Views and picks

    def at(self, x: Operand, place: int) -> Expression:
        """The item at a place; a negative one counts from the end."""
        return call("at", x, place)

    def range(
        self, x: Operand, low: int | None, high: int | None, step: int | None = None
    ) -> Expression:
        """The items from `low` to before `high`, as Python's slices go."""
        return call("range", x, low, high, *([] if step is None else [step]))

    def field(self, x: Operand, name: str) -> Expression:
        """A field of the records in x, through lists and options; of a tuple "0", "1" and so on."""
        return call("field", x, name)

    def fields(self, x: Operand, names: Iterable[str]) -> Expression:
        """The records of the named fields, in this order."""
        return call("fields", x, [*names])

    def without_field(self, x: Operand, name: str) -> Expression:
        """The records without a field."""
        return call("without_field", x, name)

    def with_field(self, x: Operand, name: str, value: Operand) -> Expression:
        """The records with a field set or added at the end."""
        return call("with_field", x, name, value)

    def at_each(self, x: Operand, place: int) -> Expression:
        """The item at a place of each list at axis 1."""
        return call("at_each", x, place)

    def pick(self, x: Operand, by: Operand) -> Expression:
        """The items where `by` is true, or at the places that it holds; row by row by its lists."""
        return call("pick", x, by)

    # Lists

    def num(self, x: Operand, axis: int) -> Expression:
        """The lengths of the lists at the axis."""
        return call("num", x, axis)

    def flatten(self, x: Operand, axis: int) -> Expression:
        """The lists at the axis joined, a missing one as an empty one; the axis is at least 1."""
        return call("flatten", x, axis)

    def local_index(self, x: Operand, axis: int) -> Expression:
        """The place of each item in its list at the axis."""
        return call("local_index", x, axis)

    def unflatten(self, x: Operand, counts: Operand) -> Expression:
        """The items of x cut into lists of these lengths."""
        return call("unflatten", x, counts)

    def run_lengths(self, x: Operand) -> Expression:
        """The lengths of the runs of equal neighbours in each innermost list."""
        return call("run_lengths", x)

    def zip(self, depth: int, columns: Mapping[str, Operand]) -> Expression:
        """Records of the columns' items, which are paired down to this many lists."""
        return call("zip", depth, [[name, it] for name, it in columns.items()])

    def tuple(self, depth: int, columns: Iterable[Operand]) -> Expression:
        """As `zip`, but tuples."""
        return call("tuple", depth, [*columns])

    def concatenate(self, axis: int, arrays: Iterable[Operand]) -> Expression:
        """The arrays joined, at axis 0 one behind the other, at axis 1 list by list."""
        return call("concatenate", axis, [*arrays])

    # Missing items

    def is_none(self, x: Operand, axis: int) -> Expression:
        """Whether each item at the axis is missing."""
        return call("is_none", x, axis)

    def fill_none(self, x: Operand, value: Operand, axis: int) -> Expression:
        """The items at the axis, with a single value for each missing one."""
        return call("fill_none", x, value, axis)

    def drop_none(self, x: Operand, axis: int) -> Expression:
        """The items at the axis that are not missing."""
        return call("drop_none", x, axis)

    def firsts(self, x: Operand, axis: int) -> Expression:
        """The first item of each list at the axis, missing where the list is empty."""
        return call("firsts", x, axis)

    def singletons(self, x: Operand, axis: int) -> Expression:
        """A list for each item at the axis: of the item, or empty where it is missing."""
        return call("singletons", x, axis)

    def pad_none(self, x: Operand, length: int, axis: int, clip: bool) -> Expression:
        """The lists at the axis with missing items up to this length, and cut to it with `clip`."""
        return call("pad_none", x, length, axis, clip)

    def put_mask(self, x: Operand, mask: Operand, valid_when: bool) -> Expression:
        """The items of x, missing where the mask is not `valid_when`."""
        return call("put_mask", x, mask, valid_when)

    # Arithmetic, comparison, logic

    def add(self, x: Operand, y: Operand) -> Expression:
        """x + y, exact or an overflow."""
        return call("add", x, y)

    def sub(self, x: Operand, y: Operand) -> Expression:
        """x - y, exact or an overflow."""
        return call("sub", x, y)

    def mul(self, x: Operand, y: Operand) -> Expression:
        """x * y, exact or an overflow."""
        return call("mul", x, y)

    def floor_div(self, x: Operand, y: Operand) -> Expression:
        """x // y, rounded down."""
        return call("floor_div", x, y)

    def rem(self, x: Operand, y: Operand) -> Expression:
        """x % y, with the sign of y."""
        return call("rem", x, y)

    def eq(self, x: Operand, y: Operand) -> Expression:
        """x == y."""
        return call("eq", x, y)

    def ne(self, x: Operand, y: Operand) -> Expression:
        """x != y."""
        return call("ne", x, y)

    def lt(self, x: Operand, y: Operand) -> Expression:
        """x < y."""
        return call("lt", x, y)

    def le(self, x: Operand, y: Operand) -> Expression:
        """x <= y."""
        return call("le", x, y)

    def gt(self, x: Operand, y: Operand) -> Expression:
        """x > y."""
        return call("gt", x, y)

    def ge(self, x: Operand, y: Operand) -> Expression:
        """x >= y."""
        return call("ge", x, y)

    def and_(self, x: Operand, y: Operand) -> Expression:
        """x & y, of truth values."""
        return call("and", x, y)

    def or_(self, x: Operand, y: Operand) -> Expression:
        """x | y, of truth values."""
        return call("or", x, y)

    def xor(self, x: Operand, y: Operand) -> Expression:
        """x ^ y, of truth values."""
        return call("xor", x, y)

    def not_(self, x: Operand) -> Expression:
        """~x, of truth values."""
        return call("not", x)

    def neg(self, x: Operand) -> Expression:
        """-x, of the same type, or an overflow."""
        return call("neg", x)

    def abs(self, x: Operand) -> Expression:
        """abs(x), of the same type, or an overflow."""
        return call("abs", x)

    def where(self, condition: Operand, x: Operand, y: Operand) -> Expression:
        """x where the condition is true, y where it is false, missing where it is."""
        return call("where", condition, x, y)

    def cast(self, x: Operand, primitive: str) -> Expression:
        """Each number as one of this primitive, such as `uint8`, or an overflow."""
        return call("cast", x, primitive)

    # Reducers, over each innermost list

    def sum(self, x: Operand) -> Expression:
        """The sum of each innermost list, 0 of none."""
        return call("sum", x)

    def prod(self, x: Operand) -> Expression:
        """The product of each innermost list, 1 of none."""
        return call("prod", x)

    def min(self, x: Operand) -> Expression:
        """The least item of each innermost list, missing of none."""
        return call("min", x)

    def max(self, x: Operand) -> Expression:
        """The greatest item of each innermost list, missing of none."""
        return call("max", x)

    def argmin(self, x: Operand) -> Expression:
        """The first place of the least item of each innermost list, missing of none."""
        return call("argmin", x)

    def argmax(self, x: Operand) -> Expression:
        """The first place of the greatest item of each innermost list, missing of none."""
        return call("argmax", x)

    def any(self, x: Operand) -> Expression:
        """Whether some item of each innermost list is true or not 0."""
        return call("any", x)

    def all(self, x: Operand) -> Expression:
        """Whether every item of each innermost list is true or not 0."""
        return call("all", x)

    def count(self, x: Operand) -> Expression:
        """The number of items of each innermost list that are not missing."""
        return call("count", x)

    def count_nonzero(self, x: Operand) -> Expression:
        """The number of items of each innermost list that are true or not 0."""
        return call("count_nonzero", x)

    # Tuples of items

    def cartesian(self, axis: int, arrays: Iterable[Operand]) -> Expression:
        """All tuples of an item of each array, at axis 1 list by list; the last varies fastest."""
        return call("cartesian", axis, [*arrays])

    def argcartesian(self, axis: int, arrays: Iterable[Operand]) -> Expression:
        """As `cartesian`, but the items' places."""
        return call("argcartesian", axis, [*arrays])

    def combinations(self, n: int, replacement: bool, axis: int, x: Operand) -> Expression:
        """The tuples of n items of each list at the axis, at increasing places; with `replacement`
        a place may come again.
        """
        return call("combinations", n, replacement, axis, x)

    def argcombinations(self, n: int, replacement: bool, axis: int, x: Operand) -> Expression:
        """As `combinations`, but the items' places."""
        return call("argcombinations", n, replacement, axis, x)

    # Order and histograms

    def sort(self, x: Operand, up: bool) -> Expression:
        """Each innermost list in rising or falling order, missing items last."""
        return call("sort", x, up)

    def argsort(self, x: Operand, up: bool) -> Expression:
        """As `sort`, but the items' places; equal items stand as they did."""
        return call("argsort", x, up)

    def hist(self, x: Operand, edges: Iterable[int]) -> Expression:
        """How many of all leaves lie from each edge to before the next, below, above, and are
        missing.
        """
        return call("hist", x, [*edges])

    def hist_each(self, x: Operand, edges: Iterable[int]) -> Expression:
        """As `hist`, for each innermost list."""
        return call("hist_each", x, [*edges])


e = Builder()

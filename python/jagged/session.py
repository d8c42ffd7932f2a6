"""Sessions with the engine."""

from __future__ import annotations

import base64
import json
import operator
import os
from collections.abc import Callable, Iterable, Mapping, Sequence
from typing import Any, SupportsIndex

from .errors import LINE_LIMIT, NoAnswer, SessionEnded
from .expressions import Expression, Operand, json_of
from .faults import fault_of
from .histogram import Histogram
from .loading import load_line, told
from .program import Piece, Program, command_of

# The line that a session of version 2 begins with, which is its own answer.
_FIRST = {"session": 2}


class Session:
    """One run of the engine's program.

    `program` is its path, or the words of a whole command. Where it is None, the program is the one
    that the environment variable JAGGED_PROGRAM names, else the built one of this repository, else
    `run.sh`, which proves and builds it first and tells of that on standard error.

    A session belongs to one thread at a time; several sessions do not disturb each other. As a
    context manager it is closed at the end of the block.
    """

    def __init__(self, program: str | os.PathLike[str] | Sequence[str] | None = None) -> None:
        self._program = Program(command_of(program))
        self._has_begun = False

    def __enter__(self) -> Session:
        return self

    def __exit__(self, kind: type[BaseException] | None, *_: object) -> None:
        try:
            self.close()
        except SessionEnded:
            # What ends the block already is not hidden.
            if kind is None:
                raise

    def load(
        self,
        name: str,
        form: Any,
        length: SupportsIndex,
        container: Mapping[str, Any],
        progress: Callable[[int, int], object] | None = None,
        byteorder: str | None = None,
    ) -> Expression:
        """Binds the name to an array, and returns the variable.

        The arguments after the name are what `awkward.to_buffers` gives: a form (an object with
        `to_json`, a dict or a JSON text), a length, and a mapping of keys to buffers, which are
        anything with the buffer protocol. Numbers stand in the byte order that a buffer's format
        tells, plain bytes the least significant first; `byteorder`, "<" or ">", says it of all of
        them. They are sent as they lie, piece by piece, and after each piece `progress` is called
        with the bytes sent and all bytes of the line and the buffers.

        Raises ValueError where these are more than the engine takes. What `progress` raises ends
        the session.
        """
        load = load_line(name, form, length, container, byteorder)
        pieces = iter(load) if progress is None else told(load, progress)
        return _variable(name, self._ask(pieces))

    def values(self, name: str, data: Iterable[Any]) -> Expression:
        """Binds the name to the array of plain values, and returns the variable.

        These are whole numbers, truth values, None, lists of values and dicts of them; tuples,
        ranges and NumPy's arrays are lists, too. The type of a list is what the types of its items
        unify to, and the fields of a record stand in the order of their names.
        """
        return _variable(name, self._answer({"values": name, "from": [*data]}))

    def let(self, name: str, x: Operand) -> Expression:
        """Binds the name to what the expression gives, and returns the variable."""
        return _variable(name, self._answer({"let": name, "be": json_of(x)}))

    def show(self, x: Operand) -> Any:
        """The value of an expression: lists, ints, bools, None where an item is missing, and dicts
        for records and tuples, whose keys are then "0", "1" and so on.
        """
        return _member(self._answer({"show": json_of(x)}), "value")

    def type(self, x: Operand) -> str:
        """The type of an expression, such as `3 * var * int64`."""
        return str(_member(self._answer({"type": json_of(x)}), "type"))

    def names(self) -> list[str]:
        """The names that are bound, in the order of their first binding."""
        return list(_member(self._answer({"names": None}), "names"))

    def pack(self, x: Operand) -> tuple[dict[str, Any], int, dict[str, bytes]]:
        """The form, the length and the buffers of an expression's array, as
        `awkward.from_buffers` and `load` take them.
        """
        answer = self._answer({"pack": json_of(x)})
        buffers = _member(answer, "buffers")
        container = {key: base64.b64decode(text) for key, text in buffers.items()}
        return _member(answer, "form"), _member(answer, "length"), container

    def hist(self, x: Operand, edges: Iterable[int]) -> Histogram:
        """The histogram of all leaves of an expression."""
        edges = [*edges]
        return Histogram.of(edges, self.show(["hist", json_of(x), edges]))

    def hist_each(self, x: Operand, edges: Iterable[int]) -> Any:
        """A histogram for each innermost list, or None where it is missing; lists of them, where
        there are more lists.
        """
        edges = [*edges]
        return _histograms(edges, self.show(["hist_each", json_of(x), edges]))

    def close(self) -> None:
        """Ends the session; where it has ended, nothing is done.

        Raises SessionEnded where the program does not end with status 0 or 1. One that has not
        ended ten seconds after its input was closed is killed.
        """
        if self._program.status is None:
            status = self._program.end()
            if status not in (0, 1):
                raise SessionEnded(status)

    def _answer(self, line: dict[str, Any]) -> dict[str, Any]:
        text = json.dumps(line, separators=(",", ":"), default=_plain).encode()
        if (count := len(text)) > LINE_LIMIT:
            raise ValueError(f"the line has {count:,} bytes, and the engine takes {LINE_LIMIT:,}")
        return self._ask([text + b"\n"])

    def _ask(self, pieces: Iterable[Piece]) -> dict[str, Any]:
        """The answer to a line, which the session's first line goes before once."""
        if not self._has_begun:
            line = json.dumps(_FIRST).encode() + b"\n"
            answer = _json_answer(self._program.exchange([line]))
            if answer != _FIRST:
                raise NoAnswer(f"the program has no sessions of version 2: {str(answer)[:200]}")
            self._has_begun = True
        answer = _json_answer(self._program.exchange(pieces))
        if "fault" in answer:
            raise fault_of(answer)
        return answer


def _plain(value: Any) -> Any:
    """The JSON of what has none in Python: NumPy's numbers and arrays, ranges and the like."""
    if hasattr(value, "tolist"):
        return value.tolist()
    return [*value] if isinstance(value, Iterable) else operator.index(value)


def _json_answer(line: bytearray) -> dict[str, Any]:
    try:
        answer = json.loads(line)
    except ValueError:
        answer = None
    if not isinstance(answer, dict):
        raise NoAnswer(f"the program wrote {bytes(line[:200])!r}")
    return answer


def _variable(name: str, answer: dict[str, Any]) -> Expression:
    """The variable that the answer tells to be bound."""
    bound = _member(answer, "bound")
    if bound != name:
        raise NoAnswer(f"{bound!r} was bound in place of {name!r}")
    return Expression(name)


def _member(answer: dict[str, Any], name: str) -> Any:
    if name not in answer:
        raise NoAnswer(f"the answer has no {name!r}: {str(answer)[:200]}")
    return answer[name]


def _histograms(edges: Sequence[int], value: Any) -> Any:
    """The value of `hist_each` with each record as a histogram."""
    if isinstance(value, list):
        return [_histograms(edges, it) for it in value]
    return None if value is None else Histogram.of(edges, value)

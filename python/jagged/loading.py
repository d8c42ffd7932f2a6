"""Load lines: a form, a length and buffers as a line of a session, with the raw bytes behind it."""

from __future__ import annotations

import json
import sys
from array import array
from collections.abc import Callable, Iterator, Mapping
from dataclasses import dataclass
from typing import Any, SupportsIndex

from .errors import LINE_LIMIT
from .expressions import number
from .program import Piece

# The bytes of a buffer that are sent at once.
PIECE = 2**18

# Unsigned numbers of so many bytes, as codes of `array`.
_CODES = {2: "H", 4: "I", 8: "Q"}


@dataclass(frozen=True)
class Load:
    """A load line with its end, and the buffers whose bytes follow it."""

    line: bytes
    buffers: list[memoryview]

    def raw_length(self) -> int:
        """The bytes that follow the line."""
        return sum(len(it) for it in self.buffers)

    def __len__(self) -> int:
        return len(self.line) + self.raw_length()

    def __iter__(self) -> Iterator[Piece]:
        yield self.line
        for buffer in self.buffers:
            for start in range(0, len(buffer), PIECE):
                yield buffer[start : start + PIECE]


def load_line(
    name: str,
    form: Any,
    length: SupportsIndex,
    container: Mapping[str, Any],
    byteorder: str | None = None,
) -> Load:
    """The line of version 2 that `Session.load` sends, whose pieces may as well be written to a
    file, behind the line `{"session":2}`.

    Raises ValueError where the engine does not take as many bytes.
    """
    if byteorder not in (None, "<", ">"):
        raise ValueError(f"the byte order is '<', '>' or None, and not {byteorder!r}")
    order, buffers = _rows_of(container, byteorder)
    raw = [[key, len(it)] for key, it in zip(container, buffers)]
    words = _text(name), _text(plain_form(form)), number(length), order.encode(), _text(raw)
    line = b'{"load":%b,"form":%b,"length":%d,"byteorder":"%b","raw":%b}\n' % words
    load = Load(line, buffers)
    for what, count in [("line", len(line) - 1), ("container", load.raw_length())]:
        if count > LINE_LIMIT:
            raise ValueError(f"the {what} has {count:,} bytes, and the engine takes {LINE_LIMIT:,}")
    return load


def told(load: Load, progress: Callable[[int, int], object]) -> Iterator[Piece]:
    """The pieces of a load; `progress` is told of each once the next is asked for."""
    sent = 0
    for piece in load:
        yield piece
        sent += len(piece)
        progress(sent, len(load))


def plain_form(form: Any) -> Any:
    """A form as the lists and dicts of its JSON."""
    if hasattr(form, "to_json"):
        form = form.to_json()
    return json.loads(form) if isinstance(form, (str, bytes)) else form


def _text(value: Any) -> bytes:
    """A value as JSON, on one line."""
    return json.dumps(value, separators=(",", ":")).encode()


def _rows_of(container: Mapping[str, Any], byteorder: str | None) -> tuple[str, list[memoryview]]:
    """The buffers as bytes in one byte order, and which that is.

    Where no order is given, each buffer's format tells its own. Where they differ, those with the
    most significant byte first are turned round.
    """
    views = [memoryview(it) for it in container.values()]
    if byteorder is not None:
        return byteorder, [_row_of_bytes(it) for it in views]
    orders = [_order_of(it) for it in views]
    if "<" in orders or ">" not in orders:
        rows = [_turned(it) if its == ">" else _row_of_bytes(it) for it, its in zip(views, orders)]
        return "<", rows
    return ">", [_row_of_bytes(it) for it in views]


def _order_of(view: memoryview) -> str | None:
    """The order of the bytes of a buffer's items, or None where they have none.

    Plain bytes may be numbers of any width, least significant byte first.
    """
    if view.format in ("?", "b") or not view.nbytes:
        return None
    if view.itemsize == 1 or view.format.startswith("<"):
        return "<"
    is_native = not view.format.startswith((">", "!"))
    return "<" if is_native and sys.byteorder == "little" else ">"


def _row_of_bytes(view: memoryview) -> memoryview:
    """The bytes of a buffer in one row, which is copied only where a view can't be that."""
    try:
        return view.cast("B")
    except (TypeError, ValueError):
        # It does not lie side by side, is empty, or is of a format that views do not cast.
        return memoryview(view.tobytes())


def _turned(view: memoryview) -> memoryview:
    """The bytes of a buffer's items, each item the other way round."""
    if view.itemsize not in _CODES:
        raise ValueError(f"items of {view.itemsize} bytes can't be turned round")
    numbers = array(_CODES[view.itemsize], view.tobytes())
    numbers.byteswap()
    return memoryview(numbers).cast("B")

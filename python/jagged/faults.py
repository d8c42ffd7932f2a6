"""The faults that the engine answers, each a kind of `EngineFault`."""

from __future__ import annotations

from dataclasses import dataclass, fields
from typing import Any, ClassVar

from .errors import JaggedError, NoAnswer


@dataclass(eq=False)
class EngineFault(JaggedError):
    """An answer that is a fault: the line changed nothing, and the session goes on."""

    word: ClassVar[str] = ""
    says: ClassVar[str] = ""

    def __str__(self) -> str:
        told = ", ".join(f"{it.name} {getattr(self, it.name)!r}" for it in fields(self))
        return f"{self.says}: {told}" if told else self.says


class JsonFault(EngineFault):
    """The line is no JSON text that the engine reads, such as an expression of 130 nested calls."""

    word = "json"
    says = "the line is no JSON text, or nests too deep"


class QueryFault(EngineFault):
    """The line is no line of a session, such as a call with an argument that is not allowed."""

    word = "query"
    says = "the line is no line of a session"


@dataclass(eq=False)
class FormFault(EngineFault):
    """The form breaks a rule, first at this node, counted from 0 in pre-order."""

    word = "form"
    says = "the form breaks a rule"
    node: int
    why: str


@dataclass(eq=False)
class BufferFault(EngineFault):
    """The buffer of this key is `absent`, too `short`, no `base64`, or `cut` by the end."""

    word = "buffer"
    says = "a buffer can't be used"
    key: str
    why: str


@dataclass(eq=False)
class InvalidFault(EngineFault):
    """The buffers of this node break a rule of its class, first at this place."""

    word = "invalid"
    says = "a buffer breaks a rule of its class"
    node: int
    rule: str
    place: int


@dataclass(eq=False)
class NameFault(EngineFault):
    """Nothing is bound to the name."""

    word = "name"
    says = "nothing is bound"
    name: str


@dataclass(eq=False)
class FieldFault(EngineFault):
    """A type has no such field; the text is empty where fields were asked of what has none."""

    word = "field"
    says = "there is no such field"
    field: str


class AxisFault(EngineFault):
    """A type has no list at the axis."""

    word = "axis"
    says = "there is no list at the axis"


class TypeFault(EngineFault):
    """A type is not one that the operation takes."""

    word = "type"
    says = "the operation does not take this type"


class OverflowFault(EngineFault):
    """An exact result, or a number of the expression, does not fit its type."""

    word = "overflow"
    says = "a number does not fit its type"


class ZeroFault(EngineFault):
    """A divisor is 0."""

    word = "zero"
    says = "a divisor is 0"


class DepthFault(EngineFault):
    """A type is deeper than 60."""

    word = "depth"
    says = "a type is too deep"


class SizeFault(EngineFault):
    """A type has too many nodes or alternatives, or a node too many items."""

    word = "size"
    says = "a type or an array is too large"


class LengthsFault(EngineFault):
    """Lengths that must agree differ."""

    word = "lengths"
    says = "lengths differ"


class IndexFault(EngineFault):
    """A place is out of range."""

    word = "index"
    says = "a place is out of range"


_FAULTS = {kind.word: kind for kind in EngineFault.__subclasses__()}


def fault_of(answer: dict[str, Any]) -> JaggedError:
    """What an answer that tells a fault is raised as."""
    kind = _FAULTS.get(str(answer["fault"]))
    if kind is None or not all(it.name in answer for it in fields(kind)):
        return NoAnswer(f"the program told an unknown fault: {str(answer)[:200]}")
    return kind(*(answer[it.name] for it in fields(kind)))

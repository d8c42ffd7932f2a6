"""Sessions with the engine for nested, jagged columns, from Python.

A `Session` starts the engine's program and asks it line by line: `load` gives it the form, the
length and the buffers that `awkward.to_buffers` makes, `show` asks for values, and so on.
Expressions are made by `e`, and only the engine computes them. What it answers by a fault is raised
as an `EngineFault`, and the session goes on; an end of the program is raised as `SessionEnded`.

Nothing beside the standard library is needed. docs/python.md tells each call with an example.
"""

from .builder import Builder, e
from .errors import LINE_LIMIT, JaggedError, NoAnswer, SessionEnded
from .expressions import Expression, Operand
from .faults import (
    AxisFault,
    BufferFault,
    DepthFault,
    EngineFault,
    FieldFault,
    FormFault,
    IndexFault,
    InvalidFault,
    JsonFault,
    LengthsFault,
    NameFault,
    OverflowFault,
    QueryFault,
    SizeFault,
    TypeFault,
    ZeroFault,
)
from .histogram import Histogram
from .loading import Load, load_line
from .session import Session

__all__ = [
    "LINE_LIMIT",
    "AxisFault",
    "BufferFault",
    "Builder",
    "DepthFault",
    "EngineFault",
    "Expression",
    "FieldFault",
    "FormFault",
    "Histogram",
    "IndexFault",
    "InvalidFault",
    "JaggedError",
    "JsonFault",
    "LengthsFault",
    "Load",
    "NameFault",
    "NoAnswer",
    "Operand",
    "OverflowFault",
    "QueryFault",
    "Session",
    "SessionEnded",
    "SizeFault",
    "TypeFault",
    "ZeroFault",
    "e",
    "load_line",
]

# What is told of a class tells where it is imported from.
for _name in __all__:
    if isinstance(globals()[_name], type):
        globals()[_name].__module__ = __name__

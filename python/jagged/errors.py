"""What the client raises that no answer of the engine is."""

from __future__ import annotations

import signal

# The most bytes of a line, without its end, and of the raw bytes behind one. At more of either the
# program ends.
LINE_LIMIT = 268_435_456


class JaggedError(Exception):
    """Whatever this package raises of its own."""


class NoAnswer(JaggedError):
    """The program wrote a line that is no answer to what was asked, so it is not the engine."""


# What the statuses of the program tell, and that of run.sh where it can't build the program.
_ENDS = {
    0: "it took the session to its end, and no answer was a fault",
    1: "it took the session to its end, and some answer was a fault",
    2: "its command line is not the one word run",
    3: "reading failed",
    4: "writing failed",
    5: "memory was wanting",
    6: f"a line, or what it loads, has more than {LINE_LIMIT:,} bytes",
    7: "there is a further byte after 1,048,576 lines",
    70: "the program could not be built",
}


class SessionEnded(JaggedError):
    """The program has ended, or the session was closed, so nothing can be asked any more.

    `status` is the program's exit status, or the negative number of the signal that ended it.
    """

    def __init__(self, status: int) -> None:
        super().__init__(status)
        self.status = status

    def __str__(self) -> str:
        if self.status < 0:
            number = -self.status
            return f"the program was ended by signal {number} ({signal.strsignal(number)})"
        why = _ENDS.get(self.status)
        return f"the program ended with status {self.status}" + (f": {why}" if why else "")

"""The program that a session runs, and the pipes to it."""

from __future__ import annotations

import fcntl
import os
import selectors
import signal
import subprocess
import weakref
from collections.abc import Iterable, Sequence
from contextlib import suppress
from pathlib import Path
from typing import IO, Union

from .errors import JaggedError, SessionEnded

# The environment variable that names the program where `Session` is given none.
PROGRAM_VARIABLE = "JAGGED_PROGRAM"

REPOSITORY = Path(__file__).resolve().parents[2]
BUILT_PROGRAM = REPOSITORY / "crates" / "awk_cli" / "out" / "awk_cli"
RUN_SCRIPT = REPOSITORY / "run.sh"

# The seconds that the program has to end once its input is closed.
GRACE = 10

# Linux's number for the call that sets how much a pipe holds, and how much that is to be: the more
# it holds, the less the two sides wait for each other.
SET_PIPE_SIZE, PIPE_SIZE = 1031, 2**20

# Large arrays are asked of the system in large pages, where it gives them on request: the fewer
# pages, the sooner a load is done. What the environment sets for the C library stays.
LARGE_PAGES = {"GLIBC_TUNABLES": "glibc.malloc.hugetlb=1"}

# What is sent at once.
Piece = Union[bytes, memoryview]


class PipeClosed(JaggedError):
    """The program no longer reads, or no longer writes."""


class Program:
    """A program that gives one line for each that it gets, and the pipes to it."""

    def __init__(self, command: Sequence[str]) -> None:
        # In a session of its own, it does not get the terminal's Ctrl-C, and can be killed with all
        # that it started.
        process = subprocess.Popen(
            command,
            stdin=subprocess.PIPE,
            stdout=subprocess.PIPE,
            bufsize=0,
            start_new_session=True,
            env={**LARGE_PAGES, **os.environ},
        )
        assert process.stdin and process.stdout
        self._process, self._input, self._output = process, process.stdin, process.stdout
        self._stop = weakref.finalize(self, _stop, process, self._input, self._output)
        # None while it runs.
        self.status: int | None = None
        self._unread = bytearray()
        os.set_blocking(self._input.fileno(), False)
        with suppress(OSError):
            fcntl.fcntl(self._input.fileno(), SET_PIPE_SIZE, PIPE_SIZE)
        self._ready = selectors.PollSelector()
        self._ready.register(self._input, selectors.EVENT_WRITE)
        self._ready.register(self._output, selectors.EVENT_READ)

    def exchange(self, pieces: Iterable[Piece]) -> bytearray:
        """Sends a line in pieces and returns the line that answers it."""
        if self.status is not None:
            raise SessionEnded(self.status)
        try:
            for piece in pieces:
                self._send(piece)
            return self._receive()
        except PipeClosed:
            raise SessionEnded(self.end()) from None
        except BaseException:
            # The line or its answer is cut in the middle, so nothing can follow.
            self._kill()
            raise

    def end(self) -> int:
        """Closes its input, waits until it ends, and returns its status."""
        try:
            self._input.close()
            self._process.wait(GRACE)
        except subprocess.TimeoutExpired:
            pass
        finally:
            status = self._kill()
        return status

    def _send(self, piece: Piece) -> None:
        """Writes the piece, and reads what comes meanwhile, so that neither side waits for ever."""
        rest = memoryview(piece)
        while rest:
            for key, _ in self._ready.select():
                if key.fileobj is self._output:
                    self._read()
                else:
                    rest = rest[self._write(rest) :]

    def _receive(self) -> bytearray:
        """The next line, without its end."""
        looked = 0
        while (end := self._unread.find(b"\n", looked)) < 0:
            looked = len(self._unread)
            self._read()
        line = self._unread[:end]
        del self._unread[: end + 1]
        return line

    def _read(self) -> None:
        piece = os.read(self._output.fileno(), 2**16)
        if not piece:
            raise PipeClosed
        self._unread += piece

    def _write(self, piece: memoryview) -> int:
        try:
            return os.write(self._input.fileno(), piece)
        except BrokenPipeError:
            raise PipeClosed from None

    def _kill(self) -> int:
        self._stop()
        self.status = self._process.wait()
        return self.status


def _stop(process: subprocess.Popen[bytes], *pipes: IO[bytes]) -> None:
    """Kills the process if it still runs, with all that it started, and closes the pipes."""
    if process.poll() is None:
        os.killpg(process.pid, signal.SIGKILL)
        process.wait()
    for it in pipes:
        it.close()


def command_of(program: str | os.PathLike[str] | Sequence[str] | None) -> list[str]:
    """The words that start a program."""
    if program is None:
        program = os.environ.get(PROGRAM_VARIABLE) or None
    if program is None and BUILT_PROGRAM.is_file():
        program = BUILT_PROGRAM
    if program is None:
        if not RUN_SCRIPT.is_file():
            raise FileNotFoundError(f"there is no program: {PROGRAM_VARIABLE} can name one")
        return [str(RUN_SCRIPT)]
    if isinstance(program, (str, os.PathLike)):
        return [os.fspath(program), "run"]
    return [*program]

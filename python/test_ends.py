"""Ends of the program and of sessions, by small programs that end as they are told."""

from __future__ import annotations

import gc
import os
import signal
import sys
import unittest
from pathlib import Path
from typing import Any
from unittest import mock

from jagged_testing import EngineCase
from jagged import NameFault, Session, SessionEnded, program
from jagged.program import PROGRAM_VARIABLE, RUN_SCRIPT, command_of

NUMBERS = {"class": "NumpyArray", "primitive": "int64", "form_key": "node0"}

# Answers the first line by itself, reads so many bytes, or a whole line where that is 0, and ends
# with the status, or by the signal where that is below 0.
ENDS = """
import os, sys
count, status = map(int, sys.argv[1:])
os.write(1, os.read(0, len('{"session": 2}') + 1))
sys.stdin.buffer.raw.read(count) if count else sys.stdin.buffer.readline()
os.kill(os.getpid(), -status) if status < 0 else os._exit(status)
"""

# Reads on and says nothing, not even that it ends.
HANGS = """
import os, signal, time
signal.signal(signal.SIGTERM, signal.SIG_IGN)
while True:
    os.read(0, 65536) or time.sleep(60)
"""


# Tells what the C library is told.
TUNABLES = "GLIBC_TUNABLES"
TELLS = f"import os; input(); print(os.environ[{TUNABLES!r}])"


def first_line_of(text: str) -> str:
    """What a small program answers to a line."""
    running = program.Program([sys.executable, "-c", text])
    try:
        return running.exchange([b"line\n"]).decode()
    finally:
        running.end()


def ends(count: int, status: int) -> Session:
    return Session([sys.executable, "-c", ENDS, str(count), str(status)])


def command_with(built: Path, given: Any = None) -> list[str]:
    """The words that start a program where this file is to be the built one."""
    with mock.patch.object(program, "BUILT_PROGRAM", built):
        return command_of(given)


def process_of(session: Session) -> int:
    return session._program._process.pid


class Programs(unittest.TestCase):
    def test_which_program(self) -> None:
        built, absent = Path(__file__), Path("/nowhere")
        with mock.patch.dict(os.environ, {PROGRAM_VARIABLE: "named"}):
            self.assertEqual(command_with(built), ["named", "run"])
            self.assertEqual(command_with(built, "given"), ["given", "run"])
            self.assertEqual(command_with(built, Path("given")), ["given", "run"])
            self.assertEqual(command_with(built, ["a", "command"]), ["a", "command"])
        with mock.patch.dict(os.environ):
            os.environ.pop(PROGRAM_VARIABLE, None)
            self.assertEqual(command_with(built), [__file__, "run"])
            self.assertEqual(command_with(absent), [str(RUN_SCRIPT)])
            with mock.patch.object(program, "RUN_SCRIPT", absent):
                with self.assertRaisesRegex(FileNotFoundError, PROGRAM_VARIABLE):
                    command_with(absent)

    def test_what_the_c_library_is_told(self) -> None:
        for setting, told in [(None, "glibc.malloc.hugetlb=1"), ("", ""), ("other=2", "other=2")]:
            with self.subTest(setting=setting), mock.patch.dict(os.environ):
                os.environ.pop(TUNABLES, None)
                if setting is not None:
                    os.environ[TUNABLES] = setting
                self.assertEqual(first_line_of(TELLS), told)

    def test_no_program(self) -> None:
        with self.assertRaises(OSError):
            Session("/nowhere/program")


class Ends(unittest.TestCase):
    def test_statuses(self) -> None:
        told = {
            2: "run",
            3: "reading",
            4: "writing",
            5: "memory",
            6: "268,435,456 bytes",
            7: "1,048,576 lines",
            70: "built",
            99: "status 99$",
            -signal.SIGTERM: "signal 15",
        }
        for status, text in told.items():
            for count in [0, 1000]:
                with self.subTest(status=status, count=count):
                    session = ends(count, status)
                    with self.assertRaisesRegex(SessionEnded, text) as caught:
                        session.load("x", NUMBERS, 0, {"node0-data": bytes(3_000_000)})
                    self.assertEqual(caught.exception.status, status)
                    with self.assertRaises(SessionEnded) as caught:
                        session.show("x")
                    self.assertEqual(caught.exception.status, status)
                    session.close()

    def test_ordinary_end_in_place_of_an_answer(self) -> None:
        for status in [0, 1]:
            with ends(0, status) as session:
                with self.assertRaises(SessionEnded) as caught:
                    session.show("x")
                self.assertEqual(caught.exception.status, status)

    def test_end_at_close(self) -> None:
        session = ends(0, 5)
        with self.assertRaises(SessionEnded) as caught:
            session.close()
        self.assertEqual(caught.exception.status, 5)
        session.close()
        with self.assertRaises(SessionEnded), ends(0, 5):
            pass
        with self.assertRaises(ZeroDivisionError), ends(0, 5):
            raise ZeroDivisionError

    def test_no_end_at_close(self) -> None:
        session = Session([sys.executable, "-c", HANGS])
        with mock.patch.object(program, "GRACE", 0.2), self.assertRaises(SessionEnded) as caught:
            session.close()
        self.assertEqual(caught.exception.status, -signal.SIGKILL)
        self.assert_gone(process_of(session))

    def test_interrupt(self) -> None:
        for size in [0, 3_000_000]:
            session = Session([sys.executable, "-c", "import time; time.sleep(60)"])
            self.interrupt_soon()
            with self.assertRaises(KeyboardInterrupt):
                session.load("x", NUMBERS, 0, {"node0-data": bytes(size)})
            self.assert_gone(process_of(session))
            with self.assertRaises(SessionEnded) as caught:
                session.show("x")
            self.assertEqual(caught.exception.status, -signal.SIGKILL)

    def test_interrupt_at_close(self) -> None:
        session = Session([sys.executable, "-c", HANGS])
        self.interrupt_soon()
        with self.assertRaises(KeyboardInterrupt):
            session.close()
        self.assert_gone(process_of(session))

    def test_forgotten_session(self) -> None:
        session = Session([sys.executable, "-c", HANGS])
        process = process_of(session)
        del session
        gc.collect()
        self.assert_gone(process)

    def interrupt_soon(self) -> None:
        """Has SIGINT come in 0.3 seconds, as from a terminal."""
        before = signal.signal(signal.SIGALRM, lambda *_: signal.raise_signal(signal.SIGINT))
        self.addCleanup(signal.signal, signal.SIGALRM, before)
        # A run in the background ignores SIGINT.
        before = signal.signal(signal.SIGINT, signal.default_int_handler)
        self.addCleanup(signal.signal, signal.SIGINT, before)
        signal.setitimer(signal.ITIMER_REAL, 0.3)

    def assert_gone(self, process: int) -> None:
        with self.assertRaises(ProcessLookupError):
            os.kill(process, 0)


class EndsOfTheEngine(EngineCase):
    def test_close(self) -> None:
        self.session.close()
        self.session.close()
        with self.assertRaises(SessionEnded) as caught:
            self.session.show("x")
        self.assertEqual(caught.exception.status, 0)

    def test_close_after_a_fault(self) -> None:
        with Session() as session:
            with self.assertRaises(NameFault):
                session.show("x")
        with self.assertRaises(SessionEnded) as caught:
            session.show("x")
        self.assertEqual(caught.exception.status, 1)

    def test_killed(self) -> None:
        os.kill(process_of(self.session), signal.SIGKILL)
        with self.assertRaises(SessionEnded) as caught:
            self.session.show("x")
        self.assertEqual(caught.exception.status, -signal.SIGKILL)

    def test_the_terminal_does_not_reach_the_program(self) -> None:
        self.assertNotEqual(os.getsid(process_of(self.session)), os.getsid(0))

    def test_progress_that_raises(self) -> None:
        def stop(sent: int, total: int) -> None:
            raise ValueError(sent, total)

        with self.assertRaises(ValueError):
            self.session.load("x", NUMBERS, 0, {"node0-data": bytes(8)}, stop)
        with self.assertRaises(SessionEnded):
            self.session.show("x")

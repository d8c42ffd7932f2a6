#!/usr/bin/env python3
"""What a program does where memory, its input or its output fail it. Begun by ./hostile.sh.

    python3 bench/hostile.py [--only WORD] [PROGRAM]

PROGRAM is crates/awk_cli/out/awk_cli where none is given. Requests for memory, reads and writes are
made to fail by a small library in C that the program is started with, so cc is wanted. Each case
prints what was tried, how often, and what came; the status is 0 where nothing else came than what
docs/RELIABILITY.md promises.
"""

from __future__ import annotations

import argparse
import json
import os
import random
import resource
import signal
import subprocess
import sys
import tempfile
import time
from collections import Counter
from collections.abc import Callable, Iterator
from pathlib import Path

ROOT = Path(__file__).resolve().parents[1]

# Fails the call to one function whose number the variable SHIM says, as `malloc 7`, or lets it move
# one byte, as `short-read 2`. Of reads, each moves as many bytes as PIECE says at most.
SHIM = r"""
#define _GNU_SOURCE
#include <dlfcn.h>
#include <errno.h>
#include <stdio.h>
#include <stdlib.h>
#include <string.h>
#include <unistd.h>

static char word[32];
static long number = -1, seen, piece = 1 << 30;

__attribute__((constructor)) static void start(void) {
    const char *told = getenv("SHIM"), *most = getenv("PIECE");
    if (told) sscanf(told, "%31s %ld", word, &number);
    if (most) piece = atol(most);
}

static int is_told(const char *name) {
    return !strcmp(word, name) && ++seen == number;
}

void *malloc(size_t size) {
    static void *(*other)(size_t);
    if (!other) other = dlsym(RTLD_NEXT, "malloc");
    return is_told("malloc") ? NULL : other(size);
}

void *realloc(void *from, size_t size) {
    static void *(*other)(void *, size_t);
    if (!other) other = dlsym(RTLD_NEXT, "realloc");
    return is_told("malloc") ? NULL : other(from, size);
}

ssize_t read(int file, void *into, size_t size) {
    static ssize_t (*other)(int, void *, size_t);
    if (!other) other = dlsym(RTLD_NEXT, "read");
    if (is_told("read")) { errno = EIO; return -1; }
    if (size > (size_t)piece) size = piece;
    return other(file, into, is_told("short-read") && size > 1 ? 1 : size);
}

ssize_t write(int file, const void *from, size_t size) {
    static ssize_t (*other)(int, const void *, size_t);
    if (!other) other = dlsym(RTLD_NEXT, "write");
    if (is_told("write")) { errno = EIO; return -1; }
    return other(file, from, is_told("short-write") && size > 1 ? 1 : size);
}
"""

LIMIT = 268_435_456

MUONS = (ROOT / "bench" / "muons.jsonl").read_bytes()

# The seconds that one run may take.
PATIENCE = 300

wrong: list[str] = []


class Program:
    """The program that is tried, and the folder with the library that fails it."""

    def __init__(self, path: str, folder: str) -> None:
        self.path, self.folder = path, Path(folder)
        source, self.shim = self.folder / "shim.c", self.folder / "shim.so"
        source.write_text(SHIM)
        build = ["cc", "-shared", "-fPIC", "-O1", "-o", str(self.shim), str(source), "-ldl"]
        subprocess.run(build, check=True)
        self.answers = self.run(MUONS)[1]

    def run(
        self,
        session: bytes | Path,
        shim: str | None = None,
        piece: int | None = None,
        memory: int | None = None,
    ) -> tuple[int, bytes]:
        """The status and the answers of a session."""
        environment = dict(os.environ)
        if shim or piece:
            told = {"SHIM": shim or "", "PIECE": str(piece or 2**30)}
            environment.update(told, LD_PRELOAD=str(self.shim))
        path = session if isinstance(session, Path) else self.folder / "session"
        if isinstance(session, bytes):
            path.write_bytes(session)
        with open(path, "rb") as file:
            done = subprocess.run(
                [self.path, "run"],
                stdin=file,
                stdout=subprocess.PIPE,
                stderr=subprocess.DEVNULL,
                env=environment,
                timeout=PATIENCE,
                preexec_fn=None if memory is None else lambda: limit_memory(memory),
            )
        return done.returncode, done.stdout


def limit_memory(count: int) -> None:
    resource.setrlimit(resource.RLIMIT_AS, (count, count))


def expect(what: str, holds: bool, came: object) -> None:
    if not holds:
        wrong.append(f"{what}: {came!r}"[:200])


def is_whole(prefix: bytes, answers: bytes) -> bool:
    """Whether it is whole answers from the first one."""
    return answers.startswith(prefix) and (not prefix or prefix.endswith(b"\n"))


def each_call(
    program: Program, word: str, piece: int | None = None
) -> Iterator[tuple[int, int, bytes]]:
    """Fails each call in turn, up to the first that the run does not make."""
    for number in range(1, 1_000_000):
        status, output = program.run(MUONS, f"{word} {number}", piece)
        if status == 0:
            expect(f"{word} {number}", output == program.answers, output)
            return
        yield number, status, output


def memory_refused(program: Program) -> str:
    count = 0
    for number, status, output in each_call(program, "malloc"):
        count += 1
        is_right = status == 5 and is_whole(output, program.answers)
        expect(f"malloc {number}", is_right, (status, output))
    return f"{count} requests refused in turn: status 5, whole answers"


def reads_fail(program: Program) -> str:
    counts = []
    for piece in [97, 7]:
        count = 0
        for number, status, output in each_call(program, "read", piece):
            ended = MUONS[: piece * (number - 1)].count(b"\n")
            told = b"".join(program.answers.splitlines(True)[:ended])
            expect(f"read {number}", (status, output) == (3, told), (status, output))
            count += 1
        counts.append(count)
    tried = " and ".join(map(str, counts))
    return f"{tried} reads failed in turn: status 3, the lines ended before"


def writes_fail(program: Program) -> str:
    count = 0
    for number, status, output in each_call(program, "write"):
        is_right = status == 4 and program.answers.startswith(output)
        expect(f"write {number}", is_right, (status, output))
        count += 1
    return f"{count} writes failed in turn: status 4, a prefix"


def short_calls(program: Program) -> str:
    count = 0
    for word in ["short-read", "short-write"]:
        for number in range(1, 40):
            came = program.run(MUONS, f"{word} {number}", 50)
            expect(f"{word} {number}", came == (0, program.answers), came)
            count += 1
    came = program.run(MUONS, piece=1)
    expect("reads of one byte", came == (0, program.answers), came)
    return f"{count} runs in which a call moved one byte, if there is one: status 0, all answers"


def limits_on_memory(program: Program) -> str:
    seen: Counter[int] = Counter()
    for kilobytes in [*range(1_500, 9_000, 100), *range(10_000, 400_000, 10_000)]:
        status, output = program.run(MUONS, memory=kilobytes * 1024)
        seen[status] += 1
        # (Below some megabytes its libraries do not fit, and the system ends it before it begins.)
        if output or not {0, 5}.isdisjoint(seen):
            is_right = status == 5 or status == 0 and output == program.answers
            is_right = is_right and is_whole(output, program.answers)
            expect(f"{kilobytes} KB", is_right, (status, output))
    return f"{seen.total()} limits on memory, statuses {dict(seen)}: whole answers"


def ends_of_the_system(program: Program) -> str:
    """Streams that are closed, full, or no files; by a shell, as a user would."""
    cases = [
        ("standard output closed", "run <session >&-", {4}),
        ("a full device", "run <session >/dev/full", {4}),
        ("standard input closed", "run <&-", {3, 0}),
        ("standard input a folder", "run <.", {3}),
        ("standard input that writes", "run 0>written", {3}),
        ("no word", "", {2}),
        ("another word", "walk <session", {2}),
        ("two words", "run run <session", {2}),
        ("a word that is no UTF-8", "$(printf '\\377') <session", {2}),
        ("an empty session", "run </dev/null", {0}),
    ]
    seen = []
    (program.folder / "session").write_bytes(MUONS)
    for name, words, statuses in cases:
        done = subprocess.run(
            ["sh", "-c", f'"$1" {words}', "sh", program.path],
            cwd=program.folder,
            stdout=subprocess.PIPE,
            stderr=subprocess.DEVNULL,
            timeout=60,
        )
        came = done.returncode, done.stdout
        expect(name, done.returncode in statuses and not done.stdout, came)
        seen.append(f"{name} {done.returncode}")
    return "statuses: " + ", ".join(seen)


def reader_that_leaves(program: Program) -> str:
    """The other side of the output closes it after one answer."""
    line = b'{"show":1}\n'
    child = subprocess.Popen([program.path, "run"], stdin=subprocess.PIPE, stdout=subprocess.PIPE)
    assert child.stdin and child.stdout
    child.stdin.write(line)
    child.stdin.flush()
    first = child.stdout.readline()
    child.stdout.close()
    try:
        child.stdin.write(line * 100_000)
        child.stdin.close()
    except BrokenPipeError:
        pass
    status = child.wait(60)
    expect("a reader that leaves", (status, first) == (4, b'{"value":1}\n'), (status, first))
    return f"status {status}"


def signals(program: Program) -> str:
    """Signals while it computes; what was answered before is whole."""
    work = {"show": ["num", ["local_index", "x", 0], 0]}
    length = 2**27
    form = {"class": "RecordArray", "fields": [], "contents": []}
    load = {"load": "x", "form": form, "length": length, "buffers": {}}
    session = "\n".join(json.dumps(it) for it in [load, *[work] * 50]).encode()
    seen = []
    for told in [signal.SIGTERM, signal.SIGINT, signal.SIGHUP, signal.SIGKILL]:
        child = subprocess.Popen(
            [program.path, "run"],
            stdin=subprocess.PIPE,
            stdout=subprocess.PIPE,
            start_new_session=True,
        )
        assert child.stdin and child.stdout
        child.stdin.write(session)
        child.stdin.flush()
        first = child.stdout.readline()
        child.send_signal(signal.SIGSTOP)
        child.send_signal(signal.SIGCONT)
        child.send_signal(told)
        rest = child.stdout.read()
        status = child.wait(60)
        lines = (first + rest).splitlines(True)
        whole = lines[:1] == [b'{"bound":"x"}\n'] and {*lines[1:]} <= {b'{"value":%d}\n' % length}
        expect(told.name, status == -told and whole, (status, lines))
        seen.append(f"{told.name} after {len(lines)} answers")
    return ", ".join(seen)


def many_lines(program: Program) -> str:
    path = program.folder / "lines"
    told = b'{"names":[]}\n'
    for count, tail, status in [(1_048_576, b"", 0), (1_048_576, b"x", 7), (1_048_577, b"", 7)]:
        path.write_bytes(b'{"names":null}\n' * count + tail)
        came = program.run(path)
        expect(f"{count} lines", came == (status, told * 1_048_576), came[0])
    path.write_bytes(b"\n" * 1_048_576 + b"x")
    came = program.run(path)
    expect("blank lines", came == (7, b""), came)
    return "1,048,576 lines: status 0; a byte more: 7"


def long_lines(program: Program) -> str:
    path = program.folder / "line"
    first = b'{"show":1}\n'
    one = b'{"value":1}\n'
    for length, status, told in [(LIMIT, 0, one * 2), (LIMIT + 1, 6, one)]:
        path.write_bytes(first + b'{"show":1' + b" " * (length - 10) + b"}\n")
        came = program.run(path)
        expect(f"a line of {length} bytes", came == (status, told), came[0])
    path.unlink()
    return "a line of 268,435,456 bytes: answered; of one more: status 6"


def bad_lines(program: Program) -> str:
    """Lines of the examples with bytes changed, cut out or put twice."""
    chance = random.Random(1)
    paths = sorted((ROOT / "examples").glob("**/*.jsonl"))
    sessions = [it.read_bytes() for it in paths if ".answers." not in it.name]
    examples = [it for text in sessions for it in text.splitlines() if len(it) < 4096]
    # (A changed size can make an array of a thousand million items, whose text is gigabytes.)
    examples = [it.replace(b'{"show":', b'{"type":') for it in examples if it.strip()]
    lines = []
    while len(lines) < 20_000:
        line = bytearray(chance.choice(examples))
        for _ in range(chance.choice([1, 1, 1, 2])):
            at = chance.randrange(len(line))
            kind = chance.randrange(4)
            if kind == 0:
                line[at] = chance.choice(b'"[]{},:0123456789-truefalsnl\\ \x00\xff')
            elif kind == 1 and len(line) > 1:
                del line[at : at + chance.randrange(1, 9)]
            elif kind == 2:
                line[at:at] = line[at : at + chance.randrange(1, 40)]
            else:
                line[at] ^= 1 << chance.randrange(8)
            line = line.replace(b"\n", b" ") or bytearray(b"0")
        if line.strip(b" \t\r"):
            lines.append(bytes(line))
    status, output = program.run(b"\n".join(lines) + b"\n")
    answers = output.splitlines()
    expect("bad lines", status == 1 and len(answers) == len(lines), (status, len(answers)))
    faults: Counter[str] = Counter()
    for answer in answers:
        faults[json.loads(answer).get("fault", "no fault")] += 1
    return f"{len(lines):,} lines, an answer each: {dict(faults.most_common())}"


CASES: list[Callable[[Program], str]] = [
    memory_refused,
    reads_fail,
    writes_fail,
    short_calls,
    limits_on_memory,
    ends_of_the_system,
    reader_that_leaves,
    signals,
    many_lines,
    long_lines,
    bad_lines,
]


def main() -> None:
    reader = argparse.ArgumentParser()
    reader.add_argument("program", nargs="?", default=str(ROOT / "crates/awk_cli/out/awk_cli"))
    reader.add_argument("--only", default="")
    told = reader.parse_args()
    with tempfile.TemporaryDirectory() as folder:
        program = Program(os.path.abspath(told.program), folder)
        for case in CASES:
            if told.only in case.__name__:
                began, before = time.perf_counter(), len(wrong)
                words = case(program)
                verdict = "as promised" if len(wrong) == before else "WRONG"
                took = time.perf_counter() - began
                name = case.__name__.replace("_", " ")
                print(f"{name} ({took:.1f} s, {verdict}): {words}", flush=True)
    for it in wrong:
        print(f"wrong: {it}")
    sys.exit(1 if wrong else 0)


if __name__ == "__main__":
    main()
